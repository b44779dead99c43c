#!/usr/bin/env python3
"""Runs generated calls of stores, and compares the answers with those of a plain store.

    checks/stores.py ROWS_PROGRAM [--count N] [--seed S]

The plain store is a dictionary, which it searches for each answer. Calls and answers are written as a row, and the
program `rows` makes the calls over a map, over trees, and over trees whose memory is left to the system. Prefixes are
drawn from a few addresses of both families, so that keys cover each other and come again; behind each change it looks
all about, and at last it walks, by several rooms, and takes all keys out again. Each case depends on its number and
the seed alone. Beside these stand keys of each length and 100,000 keys, for which memory is to be there. In a run of
the usual number of cases every kind of answer is to be met often.
"""
import argparse
import ipaddress
import random
import re
import subprocess
import sys
import tempfile
from collections import Counter
from functools import lru_cache
from pathlib import Path
from typing import NamedTuple

USUAL_COUNT = 20
CALLS = 400
ROOMS = 1, 3, 64
# The seconds that the calls of a case may last. Flaps among many keys would take minutes if a walk over trees went over
# keys without a route.
LONGEST_CASE = 30

WIDTH = {4: 32, 6: 128}
OCTETS = 0, 1, 0x80, 0x81

# How many keys there are where they are counted, and at last. Of so many keys the first has a route.
COUNTS = 1, 6_001, 65_537, 100_000
MANY, STEP, FLAPS = COUNTS[-1], 100, 50_000

# How often each of these kinds of answer stands in a run of the usual number of cases, at least.
MET = {
    'ensure: new': 500, 'ensure: known': 500, 'put: new, had none': 500, 'put: known, had none': 500,
    'put: known, had N': 500, 'exchange: no key': 500, 'exchange: had none': 500, 'exchange: had N': 500,
    'discard: no key': 500, 'discard: has a route': 500, 'discard: gone': 500, 'key: key': 2_000, 'key: no key': 2_000,
    'get: none': 2_000, 'get: N': 2_000, 'longest: none': 2_000, 'longest: N N': 2_000, 'after: none': 1_000,
    'after: N N': 2_000, 'met: none, met N': 1_000, 'met: N N, met N': 2_000, 'nodes: nodes N': 2_000,
}


# Prefixes, in the order in which walks come to them.

class Prefix(NamedTuple):
    version: int
    number: int
    length: int


def prefix_of(version, number, length):
    """The prefix of this length that has the address."""
    shift = WIDTH[version] - length
    return Prefix(version, number >> shift << shift, length)


def common(one, other):
    """The longest prefix that covers both."""
    apart = (one.number ^ other.number).bit_length()
    return prefix_of(one.version, one.number, min(one.length, other.length, WIDTH[one.version] - apart))


def covers(prefix, other):
    return prefix.version == other.version and common(prefix, other) == prefix


@lru_cache(maxsize=None)
def address_text(version, number):
    return str(ipaddress.IPv4Address(number) if version == 4 else ipaddress.IPv6Address(number))


def text(prefix):
    return f'{address_text(prefix.version, prefix.number)}/{prefix.length}'


def found(prefix, route):
    return f'{text(prefix)} {route}'


def routes_text(routes):
    return 'routes' + ''.join(f', {found(*it)}' for it in routes)


# Addresses, of which each length is to be a key.
LONG = (prefix_of(4, int(ipaddress.ip_address('10.1.2.3')), WIDTH[4]),
        prefix_of(6, int(ipaddress.ip_address('2001:db8::1')), WIDTH[6]))


# The plain store. Each call is a line of the script, and has an answer.

class Plain:
    def __init__(self, kind):
        self.kind, self.slots, self.calls = kind, {}, []

    def tell(self, call, answer):
        self.calls.append((call, str(answer)))

    # What changes it.

    def give(self, prefix, route):
        """Makes it a key with this route, and answers which one it had."""
        had = self.slots.get(prefix)
        self.slots[prefix] = route
        return f'had {had}'.lower()

    def known(self, prefix):
        return 'known' if prefix in self.slots else 'new'

    def ensure(self, prefix):
        self.tell(f'ensure {text(prefix)}', self.known(prefix))
        self.slots.setdefault(prefix, None)

    def put(self, prefix, route):
        self.tell(f'put {text(prefix)} {route}'.lower(), f'{self.known(prefix)}, {self.give(prefix, route)}')

    def exchange(self, prefix, route):
        answer = self.give(prefix, route) if prefix in self.slots else 'no key'
        self.tell(f'exchange {text(prefix)} {route}'.lower(), answer)

    def discard(self, prefix):
        if prefix not in self.slots:
            answer = 'no key'
        elif self.slots[prefix] is not None:
            answer = 'has a route'
        else:
            del self.slots[prefix]
            answer = 'gone'
        self.tell(f'discard {text(prefix)}', answer)

    def take(self):
        """Takes all routes, in the order of their prefixes."""
        self.tell('take', ''.join(['taken', *(f' {route}' for _, route in self.routes())]))
        self.slots = dict.fromkeys(self.slots)

    # What looks at it.

    def routes(self):
        return sorted((prefix, route) for prefix, route in self.slots.items() if route is not None)

    def above(self, low):
        return [it for it in self.routes() if low is None or it[0] > low]

    def look_at(self, prefix):
        route = self.slots.get(prefix)
        self.tell(f'key {text(prefix)}', 'key' if prefix in self.slots else 'no key')
        self.tell(f'get {text(prefix)}', 'none' if route is None else route)

    def containing(self, address):
        """The longest prefix with a route that contains an address, and the route."""
        longest = max((it for it in self.slots if self.slots[it] is not None and covers(it, address)),
                      key=lambda it: it.length, default=None)
        return 'none' if longest is None else found(longest, self.slots[longest])

    def longest(self, address):
        self.tell(f'longest {address_text(address.version, address.number)}', self.containing(address))

    def after(self, low):
        first = self.above(low)[:1]
        self.tell(f'after {text(low)}' if low else 'after', found(*first[0]) if first else 'none')

    def next(self, room, low):
        """The next routes, as many as there is room for."""
        routes = self.above(low)[:room]
        self.tell(f'next {room} {text(low)}' if low else f'next {room}', routes_text(routes))
        return routes

    def walk(self):
        self.tell('walk', routes_text(self.routes()))

    def counts(self):
        self.tell('counts', f'keys {len(self.slots)} routes {len(self.routes())}')
        self.tell('few', 'few nodes')

    # What trees have beside it.

    def nodes(self):
        """Those of trees: the keys, and what two neighbours have in common."""
        ordered = sorted(self.slots)
        pairs = [it for it in zip(ordered, ordered[1:]) if it[0].version == it[1].version]
        return {*ordered, *(common(*it) for it in pairs)}

    def count_nodes(self):
        self.tell('nodes', f'nodes {len(self.nodes())}')

    def met(self, count, address):
        """A look-up meets the nodes that contain the address, and the next one on its side."""
        nodes = [it for it in self.nodes() if it.version == address.version]
        lengths = [it.length for it in nodes if covers(it, address)]
        beside = any(common(it, address).length > max(lengths, default=-1) for it in nodes if not covers(it, address))
        self.tell(f'met {count} {address_text(address.version, address.number)}',
                  f'{self.containing(address)}, met {count + len(lengths) + beside}')


# The cases.

def drawn_address(drawn):
    version = drawn.choice((4, 6))
    octets = [drawn.choice(OCTETS), drawn.choice(OCTETS), *bytes(WIDTH[version] // 8 - 3), drawn.randrange(2)]
    return prefix_of(version, int.from_bytes(bytes(octets), 'big'), WIDTH[version])


def drawn_prefix(drawn, plain):
    """One that is a key, or another one of 16 bits at most, seldom one of all."""
    if plain.slots and drawn.randrange(2):
        return drawn.choice(list(plain.slots))
    address = drawn_address(drawn)
    return address if drawn.randrange(8) == 0 else prefix_of(*address[:2], drawn.randrange(17))


def change(drawn, plain):
    prefix, number = drawn_prefix(drawn, plain), drawn.randrange(2 ** 32)
    route = None if drawn.randrange(3) == 0 else number
    if drawn.randrange(100) == 0:
        plain.take()
    kind = drawn.randrange(8)
    if kind < 1:
        plain.ensure(prefix)
    elif kind < 3:
        plain.put(prefix, route)
    elif kind < 6:
        plain.exchange(prefix, route)
    else:
        plain.discard(prefix)


def look(drawn, plain):
    """Looks all about in a store."""
    prefix, address = drawn_prefix(drawn, plain), drawn_address(drawn)
    plain.look_at(prefix)
    plain.longest(address)
    plain.after(prefix)
    plain.after(None)
    plain.counts()


def look_in_tree(drawn, plain):
    """Looks at what only trees have."""
    address = drawn_address(drawn)
    plain.longest(address)
    plain.met(drawn.randrange(100), address)
    plain.count_nodes()


def walk_by(plain, room):
    low, routes = None, [None]
    while routes:
        routes = plain.next(room, low)
        low = routes[-1][0] if routes else low


def take_all_out(drawn, plain):
    for prefix in drawn.sample(list(plain.slots), len(plain.slots)):
        plain.exchange(prefix, None)
        plain.discard(prefix)
        plain.counts()


def drawn_case(drawn, kind, looks):
    plain = Plain(kind)
    for _ in range(CALLS):
        change(drawn, plain)
        looks(drawn, plain)
    plain.walk()
    for room in ROOMS:
        walk_by(plain, room)
    take_all_out(drawn, plain)
    return plain


def each_length(kind):
    """Keys of all lengths of two addresses, whose routes go again, the longest first."""
    plain = Plain(kind)
    for address in LONG:
        for length in range(address.length + 1):
            plain.put(prefix_of(*address[:2], length), length)
            plain.longest(address)
        plain.counts()
        if kind == 'store tree':
            plain.met(0, address)
            plain.count_nodes()
    for address in LONG:
        for length in reversed(range(address.length + 1)):
            plain.longest(address)
            plain.exchange(prefix_of(*address[:2], length), None)
        plain.longest(address)
        plain.counts()
    return plain


def numbered_address(number):
    return f'{10 + (number >> 16)}.{number >> 8 & 255}.{number & 255}.0'


def numbered(number):
    return f'{numbered_address(number)}/24'


def numbered_route(number):
    return f'{numbered(number)} {number}' if number < MANY else 'none'


def many_keys():
    """Each hundredth key has a route, which is found, and the next one behind it."""
    plain = Plain('store')
    for made, count in zip((0, *COUNTS), COUNTS):
        for number in range(made, count):
            if number % STEP:
                plain.tell(f'ensure {numbered(number)}', 'new')
            else:
                plain.tell(f'put {numbered_route(number)}', 'new, had none')
        plain.tell('few', 'few nodes')
        plain.tell('counts', f'keys {count} routes {(count - 1) // STEP + 1}')
    plain.tell('after', numbered_route(0))
    for number in range(0, MANY, STEP):
        plain.tell(f'get {numbered(number)}', number)
        plain.tell(f'longest {numbered_address(number)}', numbered_route(number))
        plain.tell(f'after {numbered(number)}', numbered_route(number + STEP))
        plain.tell(f'ensure {numbered(number + 1)}', 'known')
        plain.tell(f'longest {numbered_address(number + 1)}', 'none')
    plain.tell(f'longest {numbered_address(MANY)}', 'none')
    plain.tell('counts', f'keys {MANY} routes {MANY // STEP}')
    return plain


def flaps():
    """A route comes and goes at the last of many keys, of which no other has one. A tree whose keys have one length has
    a branch for each but the first."""
    plain = Plain('store tree')
    for number in range(MANY):
        plain.tell(f'ensure {numbered(number)}', 'new')
        if number + 1 in COUNTS:
            plain.tell('nodes', f'nodes {2 * number + 1}')
    last = numbered(MANY - 1)
    for route in range(FLAPS):
        plain.tell(f'exchange {last} {route}', 'had none')
        plain.tell('after', f'{last} {route}')
        plain.tell(f'exchange {last} none', f'had {route}')
        plain.tell('after', 'none')
    plain.tell('counts', f'keys {MANY} routes 0')
    return plain


def cases(asked):
    """The name of each case, and its calls."""
    for number in range(asked.count):
        drawn = random.Random(f'{asked.seed} {number}')
        yield f'case-{number}', drawn_case(drawn, 'store', look)
        yield f'trees-{number}', drawn_case(drawn, 'store tree', look_in_tree)
    yield 'lengths', each_length('store')
    yield 'lengths-of-trees', each_length('store tree')
    yield 'many', many_keys()
    yield 'flaps', flaps()


def compare(program, folder, name, plain):
    """Has the program make the calls, and shows the first that it answers otherwise."""
    calls, answers = zip(*plain.calls)
    lines = [f'{plain.kind}: {name}', *(f': {it}' for it in calls), *(f'> {it}' for it in answers)]
    (folder / name).write_text('\n'.join(lines) + '\n')
    done = subprocess.run([program, name], cwd=folder, capture_output=True, text=True, timeout=LONGEST_CASE,
                          check=False)
    if done.stdout == f'{name}: 1 rows agree\n' and done.returncode == 0:
        return
    for number, (call, wanted, told) in enumerate(zip(calls, answers, done.stdout.splitlines()[1:])):
        if wanted != told:
            sys.exit(f'stores: {name} differs at call {number + 1}: {call}\nwanted {wanted}\nfound {told}')
    sys.exit(f'stores: {name} ends with {done.returncode}:\n{done.stdout[-1000:]}{done.stderr}')


def kind_of(call, answer):
    """The word of a call and its answer, with an N for each number, address and prefix."""
    return call.split()[0] + ': ' + re.sub(r'[\w.:/]*\d[\w.:/]*', 'N', answer)


def main():
    arguments = argparse.ArgumentParser()
    arguments.add_argument('program')
    arguments.add_argument('--count', type=int, default=USUAL_COUNT)
    arguments.add_argument('--seed', type=int, default=1)
    asked = arguments.parse_args()
    program, met, count = Path(asked.program).resolve(), Counter(), 0
    with tempfile.TemporaryDirectory() as folder:
        for name, plain in cases(asked):
            compare(program, Path(folder), name, plain)
            if name.startswith(('case', 'trees')):
                met.update(kind_of(*it) for it in plain.calls)
            count += len(plain.calls)
    rare = {kind: met[kind] for kind, least in MET.items() if met[kind] < least}
    if asked.count >= USUAL_COUNT and rare:
        sys.exit(f'stores: too seldom met: {rare}')
    print(f'stores: {count} calls agree')


main()
