#!/usr/bin/env python3
"""What a lost session costs the player where its peer has withdrawn its routes.

    bench/flapping.py PROGRAM

One peer announces prefixes in random order, so many a message, and then its session is lost and
comes back, over and over: the first loss withdraws all, and the others find no route any more. Of the
player to the end of the file, and of `-m`, the least processor time of five runs counts.
"""
import random
import struct
import sys
import tempfile
from pathlib import Path

from measure import attribute, record, run

LOST, UP = (6, 1), (1, 6)

# How many prefixes are announced, in messages of how many, and how often the session is lost.
FILES = ((100_000, 800, 0), (100_000, 800, 1), (100_000, 800, 1_000), (100_000, 800, 2_000),
         (200_000, 800, 500), (200_000, 800, 1_000), (100_000, 1, 1_000))

PEER, LOCAL = b'\xc3\x1a\0\1', b'\xc3\x1a\0\2'


def announcing(numbers):
    """A message that announces the prefixes of 24 bits with these numbers."""
    found = attribute(1, b'\0') + attribute(2, struct.pack('>BBII', 2, 2, 64500, 65000)) + attribute(3, PEER)
    prefixes = b''.join(b'\x18' + struct.pack('>I', (number + (10 << 16)) << 8)[:3] for number in numbers)
    body = struct.pack('>HH', 0, len(found)) + found + prefixes
    return b'\xff' * 16 + struct.pack('>HB', 19 + len(body), 2) + body


def flapping(prefixes, at_once, losses):
    """The records of a file, as octets each."""
    numbers = list(range(prefixes))
    random.Random('flapping').shuffle(numbers)
    session = struct.pack('>IIHH', 64500, 64499, 0, 1) + PEER + LOCAL
    parts = [record(1700000000, 16, 4, session + announcing(numbers[first:first + at_once]))
             for first in range(0, prefixes, at_once)]
    for number in range(losses):
        for states in (LOST, UP):
            parts.append(record(1700000001 + number, 16, 5, session + struct.pack('>HH', *states)))
    return parts


def least_time(command):
    return min(run(command) for _ in range(5))


def main():
    if len(sys.argv) != 2:
        sys.exit(__doc__)
    program = str(Path(sys.argv[1]).resolve())
    with tempfile.TemporaryDirectory() as folder:
        path, script = Path(folder) / 'flapping.mrt', Path(folder) / 'script'
        print('prefixes  in messages of   losses    octets   played      -m   ratio')
        for prefixes, at_once, losses in FILES:
            parts = flapping(prefixes, at_once, losses)
            path.write_bytes(b''.join(parts))
            script.write_text('next %d\n' % len(parts))
            played = least_time([program, '--play', str(script), str(path)])
            dumped = least_time([program, '-m', str(path)])
            print('%8d  %14d  %7d  %8d  %7.3f %7.3f %7.1f' % (
                prefixes, at_once, losses, path.stat().st_size, played, dumped, played / dumped), flush=True)


if __name__ == '__main__':
    main()
