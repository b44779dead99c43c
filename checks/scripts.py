#!/usr/bin/env python3
"""Runs generated scripts over generated files, and compares the replies with those of a plain player.

    checks/scripts.py PROGRAM [--count N] [--seed S]

The plain player keeps no table: for each reply it searches the steps for the last one that concerns a peer and
a prefix. It is written from the manual page. Files have updates and losses of three peers, two of them with one
address, and records that are faulty; scripts have every command, in any order. Each case depends on its number
and the seed alone. In a run of the usual number of cases every kind of reply is to be met often.
"""
import argparse
import random
import struct
import subprocess
import sys
import tempfile
from pathlib import Path
from typing import NamedTuple, Optional

USUAL_COUNT = 300
RECORDS, LINES = 24, 60
# The seconds that a call may last.
LONGEST_CALL = 10

MARKER = b'\xff' * 16
PLAIN = bytes.fromhex('40010100 400204 0201 FBF4 400304 C0000209')
# IPv6 unicast, and a next hop.
FAMILY = bytes([0, 2, 1])
HOP = bytes.fromhex('20010DB8000000000000000000000001')
IPV4 = bytes.fromhex('C0000201'), bytes.fromhex('C0000202')
IPV6 = HOP, bytes.fromhex('20010DB8000000000000000000000002')


class Peer(NamedTuple):
    words: str
    session: bytes


class Prefix(NamedTuple):
    text: str
    hop: str
    octets: bytes
    is_ipv4: bool


def session(number, family, addresses):
    return struct.pack('>HHHH', number, 64501, 0, family) + b''.join(addresses)


PEERS = (
    Peer('192.0.2.1 64500', session(64500, 1, IPV4)),
    Peer('192.0.2.1 64501', session(64501, 1, IPV4)),
    Peer('2001:db8::1 64500', session(64500, 2, IPV6)),
)
PREFIXES = (
    Prefix('0.0.0.0/0', '192.0.2.9', bytes([0]), True),
    Prefix('10.0.0.0/8', '192.0.2.9', bytes([8, 10]), True),
    Prefix('10.1.0.0/16', '192.0.2.9', bytes([16, 10, 1]), True),
    Prefix('::/0', '2001:db8::1', bytes([0]), False),
    Prefix('2001:db8::/32', '2001:db8::1', bytes.fromhex('2020010DB8'), False),
)
# Addresses, each with the prefixes that contain it, the longest first.
ADDRESSES = (('10.1.2.3', (2, 1, 0)), ('10.2.0.0', (1, 0)), ('11.0.0.1', (0,)), ('2001:db8::5', (4, 3)),
             ('2001:db9::', (3,)), ('::', (3,)))

# How often each of these stands in the replies of a run of the usual number of cases, at least.
MET = {'RIB|': 2_000, 'PEER|': 1_000, 'none\n': 1_000, ' end\n': 1_000, ' dropped 0\n': 500, ' dropped 1\n': 50,
       ' forgot 0\n': 300, ' forgot 2\n': 50, '|10.1.0.0/16|': 300, '|2001:db8::/32|': 300}


# Files.

class Update(NamedTuple):
    """A peer withdraws a prefix and then announces one, at a time."""
    peer: int
    time: int
    withdrawn: Optional[int]
    announced: Optional[int]

    def time_of(self, peer, prefix):
        """The time of the route that this gives, None where it takes one, or nothing said of them."""
        if peer == self.peer and prefix == self.announced:
            return [self.time]
        return [None] if peer == self.peer and prefix == self.withdrawn else []


class Loss(NamedTuple):
    """A peer's session is lost."""
    peer: int

    def time_of(self, peer, _prefix):
        return [None] if peer == self.peer else []


class Other(NamedTuple):
    """A change of a session's state that loses nothing."""

    def time_of(self, _peer, _prefix):
        return []


def record(seconds, subtype, body):
    return struct.pack('>IHHI', seconds, 16, subtype, len(body)) + body


def counted(octets):
    return struct.pack('>H', len(octets)) + octets


def attribute(kind, value):
    return struct.pack('>BBB', 0x80, kind, len(value)) + value


def octets_of(said):
    if isinstance(said, Loss):
        return record(100, 0, PEERS[said.peer].session + struct.pack('>HH', 6, 1))
    if isinstance(said, Other):
        return record(100, 0, PEERS[0].session + struct.pack('>HH', 5, 6))
    attributes, lists = PLAIN, {'withdrawn': b'', 'announced': b''}
    for kind, number in (('withdrawn', said.withdrawn), ('announced', said.announced)):
        prefix = None if number is None else PREFIXES[number]
        if prefix and prefix.is_ipv4:
            lists[kind] = prefix.octets
        elif prefix and kind == 'withdrawn':
            attributes += attribute(15, FAMILY + prefix.octets)
        elif prefix:
            attributes += attribute(14, FAMILY + bytes([len(HOP)]) + HOP + b'\0' + prefix.octets)
    body = counted(lists['withdrawn']) + counted(attributes) + lists['announced']
    return record(said.time, 1, PEERS[said.peer].session + MARKER + struct.pack('>HB', 19 + len(body), 2) + body)


FAULTY = ((bytes.fromhex('000000C8 000D 0003 00000013 C6336401 0000 0001 00 C0000201 C0000201 FBF4'),
           'unsupported type 13 subtype 3'), (bytes.fromhex('00000064 0010 0000 00000002 FBF4'), 'malformed'))
CUT = bytes.fromhex('00000064 0010 00'), 'cut record'


def some(drawn, numbers, cases):
    """A number below the bound in so many of six cases."""
    return drawn.randrange(numbers) if drawn.randrange(6) < cases else None


def drawn_file(drawn):
    """The octets of a file, and what its records give: a step, or the text of a report."""
    octets, given = b'', []
    for number in range(drawn.randrange(RECORDS)):
        kind, peer = drawn.randrange(240), drawn.randrange(len(PEERS) + 2) % len(PEERS)
        if kind < 48:
            given.append(FAULTY[kind % 2])
        elif kind < 57:
            given.append(Loss(peer))
        elif kind < 66:
            given.append(Other())
        else:
            given.append(Update(peer, number, some(drawn, len(PREFIXES), 2), some(drawn, len(PREFIXES), 5)))
    if drawn.randrange(2):
        given.append(CUT)
    for place, what in enumerate(given):
        if isinstance(what, (Update, Loss, Other)):
            octets += octets_of(what)
        else:
            given[place] = f'bgpdump: record {place + 1}, byte {len(octets)}: {what[1]}\n'
            octets += what[0]
    return octets, given


# The plain player.

class Plain:
    def __init__(self, given):
        self.given, self.steps, self.cursor, self.floor = list(given), [], 0, 0
        self.out, self.err = '', ''

    def step(self):
        """One step on, or a report. Whether the end was met instead."""
        if self.cursor < len(self.steps):
            self.cursor += 1
        elif not self.given:
            return True
        elif isinstance(self.given[0], str):
            self.err += self.given.pop(0)
        else:
            self.steps.append(self.given.pop(0))
            self.cursor += 1
        return False

    def tell(self, ended=False):
        self.out += f'at {self.cursor}' + (' end' if ended else '') + '\n'

    def next(self, count):
        self.tell(any(self.step() for _ in range(count)))

    def back(self, count):
        self.cursor = max(self.cursor - count, self.floor)
        self.tell()

    def goto(self, place):
        if place < self.cursor:
            self.cursor = max(place, self.floor)
            return self.tell()
        while self.cursor != place:
            if self.step():
                return self.tell(True)
        return self.tell()

    def where(self):
        self.out += f'at {self.cursor} ahead {len(self.steps) - self.cursor}\n'

    def lose(self, peer):
        dropped = len(self.steps) - self.cursor
        self.steps[self.cursor:] = [Loss(peer)]
        self.cursor += 1
        self.out += f'at {self.cursor} dropped {dropped}\n'

    def forget(self, kept):
        floor = max(self.floor, self.cursor - kept)
        self.out += f'at {self.cursor} floor {floor} forgot {floor - self.floor}\n'
        self.floor = floor

    def time_of(self, peer, prefix):
        for said in reversed(self.steps[:self.cursor]):
            for time in said.time_of(peer, prefix):
                return time
        return None

    def routes_of(self, peer):
        return [it for it in range(len(PREFIXES)) if self.time_of(peer, it) is not None]

    def show(self, peer, prefixes):
        """The line of each route."""
        for it in prefixes:
            address, number = PEERS[peer].words.split()
            self.out += (f'RIB|{self.time_of(peer, it)}|B|{address}|{number}|{PREFIXES[it].text}|64500|IGP|'
                         f'{PREFIXES[it].hop}|0|0||NAG||\n')

    def peers(self):
        counts = [(it, len(self.routes_of(it))) for it in range(len(PEERS))]
        lines = ['PEER|%s|%d\n' % (PEERS[it].words.replace(' ', '|'), count) for it, count in counts if count]
        self.out += ''.join(lines) or 'none\n'

    def table(self, peer):
        self.show(peer, self.routes_of(peer))
        self.out += f'routes {len(self.routes_of(peer))}\n'

    def first(self, peer, prefixes):
        """The first of the prefixes that has a route."""
        found = [it for it in prefixes if it in self.routes_of(peer)][:1]
        self.show(peer, found)
        self.out += '' if found else 'none\n'


def carry_out(drawn, plain, number):
    """Draws a line, has the plain player carry it out, and answers it."""
    kind, peer = drawn.randrange(40), drawn.randrange(len(PEERS) + 2) % len(PEERS)
    words, prefix, count = PEERS[peer].words, drawn.randrange(len(PREFIXES)), drawn.randrange(8)
    address, containing = drawn.choice(ADDRESSES)
    place, kept = drawn.randrange(RECORDS), drawn.randrange(10)
    choices = (
        (8, f'next {count + 1}', lambda: plain.next(count + 1)),
        (11, f'back {count % 4 + 1}', lambda: plain.back(count % 4 + 1)),
        (13, f'goto {place}', lambda: plain.goto(place)), (16, 'where', plain.where), (20, 'peers', plain.peers),
        (24, f'table {words}', lambda: plain.table(peer)),
        (28, f'route {words} {PREFIXES[prefix].text}', lambda: plain.first(peer, [prefix])),
        (32, f'lookup {words} {address}', lambda: plain.first(peer, containing)),
        (35, f'forget {kept}', lambda: plain.forget(kept)), (37, f'lose {words}', lambda: plain.lose(peer)),
        (38, '', lambda: None), (40, 'next 0', None),
    )
    _, line, call = next(it for it in choices if kind < it[0])
    if call:
        call()
    else:
        plain.err += f'bgpdump: script line {number}: bad command\n'
    return line + '\n'


def compare(program, folder, seed, case):
    """What the program replies to a case, or what differs."""
    drawn = random.Random(f'{seed} {case}')
    octets, given = drawn_file(drawn)
    plain = Plain(given)
    script = ''.join(carry_out(drawn, plain, number) for number in range(1, LINES + 1))
    (folder / 'file').write_bytes(octets)
    (folder / 'script').write_text(script)
    done = subprocess.run([program, '--play', folder / 'script', folder / 'file'], capture_output=True, text=True,
                          timeout=LONGEST_CALL, check=False)
    wanted = plain.out, plain.err, int(bool(plain.err))
    if (done.stdout, done.stderr, done.returncode) != wanted:
        print(f'scripts: case {case} of seed {seed} differs: in octets\n{octets.hex()}\nwith the script\n{script}')
        print(f'wanted {wanted}\nfound {(done.stdout, done.stderr, done.returncode)}')
        sys.exit(1)
    return done.stdout


def main():
    arguments = argparse.ArgumentParser()
    arguments.add_argument('program')
    arguments.add_argument('--count', type=int, default=USUAL_COUNT)
    arguments.add_argument('--seed', type=int, default=1)
    asked = arguments.parse_args()
    program = Path(asked.program).resolve()
    with tempfile.TemporaryDirectory() as folder:
        replies = ''.join(compare(program, Path(folder), asked.seed, case) for case in range(asked.count))
    rare = {words: replies.count(words) for words, least in MET.items() if replies.count(words) < least}
    if asked.count >= USUAL_COUNT and rare:
        sys.exit(f'scripts: too seldom met: {rare}')
    print(f'scripts: {asked.count} cases agree')


main()
