#!/usr/bin/env python3
"""How time and memory grow: those of `-m` with the records of a table, the entries of a record, the
numbers of a path and the prefixes of a message, and with the size of one record; those of the player
with the paths of a table, with the prefixes of one peer, in order and at random, and with lost sessions.

    bench/growth.py PROGRAM [--large]

Each row is a file that has one of them varied and the others fixed, always the same octets. Of eleven
runs of `-m`, and three of the player, the least processor time counts, without that of a run over no
records; peaks are those of one run, without what that one takes. --large adds files of up to ten
million prefixes, with which the player takes some GB.
"""
import random
import struct
import sys
import tempfile
from pathlib import Path

from flapping import announcing, flapping
from measure import address, attribute, communities, peak_memory, prefix, record, run

# How many lines a file has, about.
LINES = 200_000

PEER = struct.pack('>BI', 2, 1) + b'\xc3\x1a\0\1' + struct.pack('>I', 64500)


def attributes(chance, hops):
    """The attributes of a route whose path has so many numbers."""
    numbers = [chance.randrange(1, 400_000) for _ in range(hops)]
    path = struct.pack('>BB%dI' % hops, 2, hops, *numbers)
    # its length takes two octets
    return (attribute(1, b'\0') + struct.pack('>BBH', 0x50, 2, len(path)) + path
            + attribute(3, address(chance, 4)) + attribute(8, communities(chance, 4)[:16]))


def table(records, entries, hops):
    """An index of one peer, and records of so many entries each."""
    chance = random.Random('table')
    parts = [record(1700000000, 13, 1, struct.pack('>IHH', 1, 0, 1) + PEER)]
    for sequence in range(records):
        body = struct.pack('>I', sequence) + prefix(chance, 4) + struct.pack('>H', entries)
        for _ in range(entries):
            found = attributes(chance, hops)
            body += struct.pack('>HIH', 0, 1690000000, len(found)) + found
        parts.append(record(1700000000, 13, 2, body))
    return b''.join(parts)


def messages(count, prefixes):
    """UPDATE messages that announce so many prefixes each."""
    chance = random.Random('messages')
    session = struct.pack('>IIHH', 64500, 64499, 0, 1) + address(chance, 4) + address(chance, 4)
    parts = []
    for number in range(count):
        found = attributes(chance, 5)
        body = struct.pack('>HH', 0, len(found)) + found + b''.join(prefix(chance, 4) for _ in range(prefixes))
        message = b'\xff' * 16 + struct.pack('>HB', 19 + len(body), 2) + body
        parts.append(record(1700000000 + number // 100, 16, 4, session + message))
    return b''.join(parts)


def long_message(prefixes, hops):
    """One UPDATE message of this many prefixes and a path of this many numbers."""
    chance = random.Random('long')
    numbers = b''.join(struct.pack('>BB255I', 2, 255, *(chance.randrange(1, 400_000) for _ in range(255)))
                       for _ in range(hops // 255))
    found = attribute(1, b'\0') + struct.pack('>BBH', 0x50, 2, len(numbers)) + numbers + attribute(3, address(chance, 4))
    body = struct.pack('>HH', 0, len(found)) + found + b''.join(prefix(chance, 4) for _ in range(prefixes))
    session = struct.pack('>IIHH', 64500, 64499, 0, 1) + address(chance, 4) + address(chance, 4)
    return record(1700000000, 16, 4, session + b'\xff' * 16 + struct.pack('>HB', 19 + len(body), 2) + body)


def prefixes_of_one(count, shuffled):
    """The prefixes of 24 bits from 10.0.0.0 on, so many, in messages of 800 of one peer."""
    numbers = list(range(count))
    if shuffled:
        random.Random('shuffled').shuffle(numbers)
    session = struct.pack('>IIHH', 64500, 64499, 0, 1) + b'\xc3\x1a\0\1\xc3\x1a\0\2'
    return b''.join(record(1700000000, 16, 4, session + announcing(numbers[first:first + 800]))
                    for first in range(0, count, 800))


def rows_of_lines():
    """Of `-m`: what is varied, how many of it there are, the lines of the file, and the file."""
    for records in (2_500, 5_000, 10_000, 20_000, 40_000):
        yield 'records', records, records * 20, table(records, 20, 5)
    for entries in (1, 10, 100, 1_000, 10_000):
        yield 'entries of a record', entries, LINES, table(LINES // entries, entries, 5)
    for hops in (1, 4, 16, 64, 255):
        yield 'numbers of a path', hops, LINES // 4, table(LINES // 80, 20, hops)
    for prefixes in (1, 4, 16, 64, 256):
        yield 'prefixes of a message', prefixes, LINES, messages(LINES // prefixes, prefixes)
    for prefixes in (1_000, 3_000, 9_000):
        yield 'prefixes, long path', prefixes, prefixes, long_message(prefixes, 25 * 255)
    for size in (1 << 20, 1 << 22, 1 << 24):
        yield 'octets, unsupported', size, 1, record(1700000000, 99, 1, bytes(size))


def rows_of_steps(large):
    """Of the player, alike; a line is a path of a table, a prefix or a loss."""
    for records in (2_500, 5_000, 10_000, 20_000):
        yield 'paths, one peer', records * 20, records * 20, table(records, 20, 5)
    for count in (100_000, 200_000, 400_000, 800_000) + ((2_500_000, 5_000_000, 10_000_000) if large else ()):
        yield 'prefixes in order', count, count, prefixes_of_one(count, False)
        yield 'prefixes at random', count, count, prefixes_of_one(count, True)
    for losses in (500, 1_000, 2_000, 4_000):
        yield 'losses, 100,000 prefixes', losses, 100_000 + losses, b''.join(flapping(100_000, 800, losses))


def told(row, command, start, times):
    """Prints how long a command takes over the file of a row, and its peak memory."""
    name, count, lines, octets = row
    seconds = min(run(command) for _ in range(times)) - start[0]
    peak = float(peak_memory(command)) - start[1]
    print('%-24s %9d %9d %9.3f %11.0f %11.1f %9.1f' % (
        name, count, lines, seconds, seconds * 1e9 / lines, seconds * 1e9 / len(octets), peak), flush=True)


def main():
    words = [word for word in sys.argv[1:] if word != '--large']
    if len(words) != 1:
        sys.exit(__doc__)
    program = str(Path(words[0]).resolve())
    with tempfile.TemporaryDirectory() as folder:
        path, script = Path(folder) / 'file.mrt', Path(folder) / 'script'
        script.write_text('next 4294967295\n')
        for heading, command, rows, times in (
                ('lines', [program, '-m', str(path)], rows_of_lines(), 11),
                ('steps', [program, '--play', str(script), str(path)], rows_of_steps('--large' in sys.argv), 3)):
            path.write_bytes(b'')
            start = min(run(command) for _ in range(11)), float(peak_memory(command))
            print('varied                       count     %s   seconds   ns a line ns an octet       MiB' % heading)
            for row in rows:
                path.write_bytes(row[3])
                told(row, command, start, times)


main()
