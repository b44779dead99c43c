#!/usr/bin/env python3
"""What an octet of input costs at most, as far as is known, and what a long record and a lost session take.

    bench/costs.py PROGRAM

Prints the time of `-m` over one UPDATE of 65,535 octets whose lines have 3.4 GB, for each of its octets, the least of
three runs; the peak of `-m` over a record of 16 MB, for each of its octets; and how many octets the player takes more
for each route of a session that is lost, of IPv4 and of IPv6.
"""
import struct
import sys
import tempfile
from pathlib import Path

from measure import attribute, peak_memory, record, run

PEER, LOCAL = b'\xc3\x1a\0\1', b'\xc3\x1a\0\2'
SESSION = struct.pack('>IIHH', 64500, 64499, 0, 1) + PEER + LOCAL
NEXT_HOP_V6 = bytes.fromhex('20010DB8') + bytes(11) + b'\1'

# How many octets an UPDATE has at most, and those beside attributes and prefixes.
LONGEST, BESIDE = 65_535, 23
ROUTES = 200_000


def path(*segments):
    return b''.join(struct.pack('>BB%dI' % len(numbers), 2, len(numbers), *numbers) for numbers in segments)


def long_attribute(kind, value):
    return struct.pack('>BBH', 0xD0, kind, len(value)) + value


def message(attributes, prefixes):
    body = struct.pack('>HH', 0, len(attributes)) + attributes + prefixes
    return record(1700000000, 16, 4, SESSION + b'\xff' * 16 + struct.pack('>HB', 19 + len(body), 2) + body)


def many_long_lines():
    """One message that has 8,180 communities, and the prefix 0.0.0.0/0 as often as there is room for."""
    attributes = (attribute(1, b'\0') + attribute(2, path([64500])) + attribute(3, PEER)
                  + long_attribute(8, b'\xff\xff\xff\2' * 8_180))
    return message(attributes, bytes(LONGEST - BESIDE - len(attributes)))


def long_record():
    """An index of one peer, and a record of 65,535 entries that have 40 segments of one number each."""
    yield record(1700000000, 13, 1, struct.pack('>IHHBI', 1, 0, 1, 2, 1) + PEER + struct.pack('>I', 64500))
    entries = [long_attribute(2, path(*[[number]] * 40)) for number in range(65_535)]
    yield record(1700000000, 13, 2, b'\0\0\0\0\x18\x0a\0\0' + struct.pack('>H', len(entries)) + b''.join(
        struct.pack('>HIH', 0, 1690000000, len(found)) + found for found in entries))


def prefixes_v4(numbers):
    return b''.join(b'\x18' + struct.pack('>I', (number + (10 << 16)) << 8)[:3] for number in numbers)


def prefixes_v6(numbers):
    return b''.join(b'\x30\x20\x01' + struct.pack('>I', number) for number in numbers)


def announced_v4(numbers):
    return message(attribute(1, b'\0') + attribute(2, path([64500])) + attribute(3, PEER), prefixes_v4(numbers))


def announced_v6(numbers):
    reach = struct.pack('>HBB', 2, 1, 16) + NEXT_HOP_V6 + b'\0' + prefixes_v6(numbers)
    return message(attribute(1, b'\0') + attribute(2, path([64500])) + long_attribute(14, reach), b'')


def announcements(announced):
    return [announced(range(first, first + 400)) for first in range(0, ROUTES, 400)]


LOSS = record(1700000000, 16, 5, SESSION + struct.pack('>HH', 6, 1))


def main():
    if len(sys.argv) != 2:
        sys.exit(__doc__)
    program = str(Path(sys.argv[1]).resolve())
    with tempfile.TemporaryDirectory() as folder:
        file, script = Path(folder) / 'costs.mrt', Path(folder) / 'script'
        script.write_text('next 4294967295\n')
        dumped, played = [program, '-m', str(file)], [program, '--play', str(script), str(file)]

        def peak(command, records):
            file.write_bytes(b''.join(records))
            return float(peak_memory(command)) * 2 ** 20

        empty = peak(dumped, [])
        file.write_bytes(many_long_lines())
        took = min(run(dumped) for _ in range(3))
        print('%.2f microseconds of -m an octet of the message (%.2f s)' % (1e6 * took / file.stat().st_size, took))
        taken = peak(dumped, long_record()) - empty
        print('%.1f octets an octet of the record (%.0f MB)' % (taken / file.stat().st_size, taken / 1e6))
        for family, announced in (('IPv4', announced_v4), ('IPv6', announced_v6)):
            records = announcements(announced)
            more = peak(played, [*records, LOSS]) - peak(played, records)
            print('%.0f octets a lost route of %s' % (more / ROUTES, family))


if __name__ == '__main__':
    main()
