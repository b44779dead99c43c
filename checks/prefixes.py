#!/usr/bin/env python3
"""Runs calls on drawn addresses and prefixes, and compares the answers with those worked out bit by bit.

    checks/prefixes.py ROWS_PROGRAM [--count N] [--seed S]

Each case is a pair of prefixes whose addresses differ in one bit, of one family or two, mostly of lengths of their own:
what they are, how they compare, what they share, and where they lie, seen from one another. Calls and answers are
written as a row, which the program `rows` carries out. A prefix is a text of bits here, and the texts of addresses are
those of Python's ipaddress. Each case depends on its number and the seed alone. In a run of the usual number of cases
every kind of answer is to be met often.
"""
import argparse
import ipaddress
import os.path
import random
import subprocess
import sys
import tempfile
from collections import Counter
from pathlib import Path
from typing import NamedTuple

USUAL_COUNT = 4_000
LONGEST_RUN = 60

WIDTH = {4: 32, 6: 128}
ADDRESS = {4: ipaddress.IPv4Address, 6: ipaddress.IPv6Address}

# How often each of these answers stands in a run of the usual number of cases, at least.
MET = {
    'turn outside': 2_000, 'turn here': 50, 'turn left': 300, 'turn right': 300,
    'under here': 50, 'under left': 300, 'under right': 300,
    'from outside': 700, 'from here': 30, 'from left': 100, 'from right': 100,
    'compare less': 1_500, 'compare greater': 1_500, 'compare equal': 50,
    'contains yes': 400, 'contains no': 1_500, 'covers yes': 400, 'covers no': 1_500,
    'shared N': 1_500, 'shared other families': 1_500, 'half N': 3_000, 'new N': 3_000, 'read N': 3_000,
}


class Prefix(NamedTuple):
    """An address as a text of its bits, and how many of them the prefix has."""
    version: int
    whole: str
    length: int

    def bits(self):
        return self.whole[:self.length]


def address_text(version, bits):
    """The text of the address that begins with these bits, and then has zeros."""
    return str(ADDRESS[version](int(bits.ljust(WIDTH[version], '0'), 2)))


def text_of(version, bits):
    return f'{address_text(version, bits)}/{len(bits)}'


def text(prefix):
    return text_of(prefix.version, prefix.bits())


def described(prefix):
    """The prefix as `new` answers it."""
    least = address_text(prefix.version, prefix.bits())
    return f'{text(prefix)} from {least}, length {prefix.length}, v{prefix.version}'


# What is worked out, bit by bit.

def turn(one, other):
    if one.version != other.version or not other.bits().startswith(one.bits()):
        return 'outside'
    if one.length == other.length:
        return 'here'
    return 'right' if other.bits()[one.length] == '1' else 'left'


def shared(one, other):
    if one.version != other.version:
        return 'other families'
    return text_of(one.version, os.path.commonprefix([one.bits(), other.bits()]))


def compared(one, other):
    """IPv4 comes first. A prefix comes before those that it covers, as a text before those that it begins."""
    low, high = (one.version, one.bits().ljust(WIDTH[one.version], '0'), one.length), (
        other.version, other.bits().ljust(WIDTH[other.version], '0'), other.length)
    return 'less' if low < high else 'greater' if low > high else 'equal'


def covers(one, other):
    return 'no' if turn(one, other) == 'outside' else 'yes'


def half(prefix):
    return f'{int(prefix.bits()[:64].ljust(64, "0"), 2):016x}'


def read(prefix, more):
    """The octets of a prefix with any bits behind its length, and some octets more, and what is read of them."""
    size = (prefix.length + 7) // 8
    octets = bytes([prefix.length]) + int(prefix.whole, 2).to_bytes(WIDTH[prefix.version] // 8, 'big')[:size] + more
    return f'read v{prefix.version} {octets.hex().upper()}', f'{text(prefix)}, octets {size + 1}'


def calls_of(one, other, more):
    """Calls on two prefixes, and their answers."""
    address = {it: address_text(it.version, it.whole) for it in (one, other)}
    for it in (one, other):
        yield f'new {address[it]} {it.length}', described(it)
        yield f'half {text(it)}', half(it)
        yield read(it, more)
    for it, that in ((one, other), (other, one)):
        there = turn(it, that)
        yield f'turn {text(it)} {text(that)}', there
        if there != 'outside':
            yield f'under {it.length} {text(that)}', there
        if it.version == 4:
            yield f'from {address[it]}/{it.length} {text(that)}', there
        yield f'shared {text(it)} {text(that)}', shared(it, that)
        yield f'compare {text(it)} {text(that)}', compared(it, that)
        yield f'covers {text(it)} {text(that)}', covers(it, that)
        yield f'contains {text(it)} {address[that]}', covers(it, that._replace(length=WIDTH[that.version]))


def drawn_prefix(drawn, number):
    version = drawn.choice((4, 6))
    return Prefix(version, f'{number:0128b}'[:WIDTH[version]], drawn.randrange(WIDTH[version] + 1))


def drawn_pair(drawn):
    """Two whose numbers differ in one bit, now and then of one family and length."""
    number = drawn.getrandbits(128)
    near = number ^ 1 << drawn.randrange(128)
    one = drawn_prefix(drawn, number)
    if drawn.randrange(4) == 0:
        return one, one._replace(whole=f'{near:0128b}'[:WIDTH[one.version]])
    return one, drawn_prefix(drawn, near)


def cases(asked):
    for number in range(asked.count):
        drawn = random.Random(f'{asked.seed} {number}')
        yield from calls_of(*drawn_pair(drawn), drawn.randbytes(drawn.randrange(3)))


def compare(program, calls):
    """Has the program make the calls, and shows the first that it answers otherwise."""
    lines = ['values: Drawn prefixes', *(f': {call}\n> {answer}' for call, answer in calls)]
    with tempfile.TemporaryDirectory() as folder:
        (Path(folder) / 'drawn').write_text('\n'.join(lines) + '\n')
        done = subprocess.run([program, 'drawn'], cwd=folder, capture_output=True, text=True, timeout=LONGEST_RUN,
                              check=False)
    if done.stdout == 'drawn: 1 rows agree\n' and done.returncode == 0:
        return
    for (call, wanted), told in zip(calls, done.stdout.splitlines()[1:]):
        if wanted != told:
            sys.exit(f'prefixes: {call}\nwanted {wanted}\nfound {told}')
    sys.exit(f'prefixes: the program ends with {done.returncode}:\n{done.stdout[-1000:]}{done.stderr}')


def kind_of(call, answer):
    """The word of a call and its answer, with an N for one that tells a value."""
    return f'{call.split()[0]} ' + ('N' if any(it.isdigit() for it in answer) or ':' in answer else answer)


def main():
    arguments = argparse.ArgumentParser()
    arguments.add_argument('program')
    arguments.add_argument('--count', type=int, default=USUAL_COUNT)
    arguments.add_argument('--seed', type=int, default=1)
    asked = arguments.parse_args()
    calls = list(cases(asked))
    compare(Path(asked.program).resolve(), calls)
    met = Counter(kind_of(*it) for it in calls)
    rare = {kind: met[kind] for kind, least in MET.items() if met[kind] < least}
    if asked.count >= USUAL_COUNT and rare:
        sys.exit(f'prefixes: too seldom met: {rare}')
    print(f'prefixes: {len(calls)} calls agree')


main()
