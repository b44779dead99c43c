#!/usr/bin/env python3
"""What forgetting steps costs and saves, over updates that come back to the same prefixes.

    bench/forgetting.py PROGRAM

First the same updates once, twice, four and eight times, with all steps kept and with the last
hundred alone: processor time and peak memory. Then the updates once, and eight times, with other
numbers of steps between two calls that forget and of steps kept: processor time, and beside that with
none forgotten. Of three runs the least time counts.
"""
import random
import struct
import sys
import tempfile
from pathlib import Path

from measure import TRANSITS, address, attribute, attributes, peak_memory, record, run

MESSAGES, PEERS, PREFIXES = 40_000, 10, 5_000

# How many steps are played between two calls that forget, and how many are kept; None: all.
ROUNDS = ((100, None), (100, 0), (100, 100), (1_000, None), (1_000, 0), (1_000, 1_000), (1_000, 10_000),
          (10_000, None), (10_000, 0))

# The same over the updates eight times.
LONG_ROUNDS = ((1_000, None), (1_000, 1_000), (1_000, 10_000), (1_000, 100_000))


def updates():
    """Messages of one to four prefixes, each fourth a withdrawal."""
    chance = random.Random('forgetting')
    peers = [(chance.choice(TRANSITS), address(chance, 4)) for _ in range(PEERS)]
    parts = []
    for number in range(MESSAGES):
        asn, addr = chance.choice(peers)
        prefixes = b''.join(b'\x18' + struct.pack('>I', chance.randrange(PREFIXES) << 8 | 11 << 24)[:3]
                            for _ in range(chance.randint(1, 4)))
        if chance.random() < 0.25:
            body = struct.pack('>H', len(prefixes)) + prefixes + bytes(2)
        else:
            found = attributes(chance, attribute(3, addr))
            body = struct.pack('>HH', 0, len(found)) + found + prefixes
        message = b'\xff' * 16 + struct.pack('>HB', 19 + len(body), 2) + body
        session = struct.pack('>IIHH', asn, 64499, 0, 1) + addr + address(chance, 4)
        parts.append(record(1700000000 + number // 100, 16, 4, session + message))
    return b''.join(parts)


def script(steps, between, kept):
    """As many steps, and calls that forget in between."""
    return ''.join('next %d\n' % between + ('' if kept is None else 'forget %d\n' % kept)
                   for _ in range(steps // between + 1))


def least_time(command):
    return min(run(command) for _ in range(3))


def main():
    if len(sys.argv) != 2:
        sys.exit(__doc__)
    program = str(Path(sys.argv[1]).resolve())
    with tempfile.TemporaryDirectory() as folder:
        path, steps = Path(folder) / 'updates.mrt', Path(folder) / 'steps'
        command = [program, '--play', str(steps), str(path)]
        once = updates()
        print('times   steps kept   seconds   peak MiB')
        for times in (1, 2, 4, 8):
            path.write_bytes(once * times)
            for kept in (None, 100):
                steps.write_text(script(MESSAGES * times, 100, kept))
                print('%5d   %10s   %7.3f   %8s' % (
                    times, 'all' if kept is None else kept, least_time(command), peak_memory(command)), flush=True)
        for times, rounds in ((1, ROUNDS), (8, LONG_ROUNDS)):
            path.write_bytes(once * times)
            print('times   steps between   steps kept   seconds   ratio')
            alone = {}
            for between, kept in rounds:
                steps.write_text(script(MESSAGES * times, between, kept))
                seconds = least_time(command)
                alone.setdefault(between, seconds)
                print('%5d   %13d   %10s   %7.3f   %5.2f' % (
                    times, between, 'all' if kept is None else kept, seconds, seconds / alone[between]), flush=True)


main()
