#!/usr/bin/env python3
"""Feeds the built program an input that is slow in coming, and sees what it prints in between.

    checks/slow_input.py PROGRAM

What a record gives has to come out before the next one goes in, on both outputs, also where a record
comes in two pieces. And where the input is fast, it writes no more often than it reads, and twice for
each 64 KiB that it writes. The status is 1 where something is wrong.
"""
import os
import select
import subprocess
import sys
import tempfile
import threading
from pathlib import Path

EXAMPLES = Path(__file__).resolve().parent.parent / 'examples'
# The seconds that a text may be long in coming.
LONGEST = 20
BUFFER = 65_536

STATE = bytes.fromhex('0000006400100000 00000014 FBF4FBF500000001C0000201C000020200060001')
STATE_LINE = b'BGP4MP|100|STATE|192.0.2.1|64500|6|1\n'
# A type that isn't read, and a state change that is cut.
UNKNOWN = bytes.fromhex('00000064 00630000 00000002 0000')
MALFORMED = bytes.fromhex('0000006400100000 00000004 FBF4FBF5')


class Slow:
    """A run whose input and outputs are pipes."""

    def __init__(self, program, *words):
        self.run = subprocess.Popen([program, *words], stdin=subprocess.PIPE, stdout=subprocess.PIPE,
                                    stderr=subprocess.PIPE)
        self.given = 0

    def give(self, octets):
        os.write(self.run.stdin.fileno(), octets)
        self.given += len(octets)

    def text(self, stream, size):
        """What comes out of a stream, so many octets, or fewer where they are too long in coming."""
        found = b''
        while len(found) < size and select.select([stream], [], [], LONGEST)[0]:
            more = os.read(stream.fileno(), size - len(found))
            if not more:
                break
            found += more
        return found

    def end(self):
        self.run.stdin.close()
        return self.run.stdout.read(), self.run.stderr.read(), self.run.wait()


def lines_come_one_by_one(program):
    slow = Slow(program, '-m', '-')
    for turn in range(10):
        slow.give(STATE[:turn])
        slow.give(STATE[turn:])
        if slow.text(slow.run.stdout, len(STATE_LINE)) != STATE_LINE:
            yield f'the line of record {turn + 1} came late, or another one'
    out, err, status = slow.end()
    if (out, err, status) != (b'', b'', 0):
        yield f'it ended with {out}, {err} and {status}'


def reports_come_one_by_one(program):
    slow = Slow(program, '-m', '-')
    for number, record, kind in [(1, UNKNOWN, 'unsupported type 99 subtype 0'), (2, MALFORMED, 'malformed'),
                                 (3, UNKNOWN, 'unsupported type 99 subtype 0')]:
        report = f'bgpdump: record {number}, byte {slow.given}: {kind}\n'.encode()
        slow.give(record)
        if slow.text(slow.run.stderr, len(report)) != report:
            yield f'the report of record {number} came late, or another one'
    slow.give(STATE)
    if slow.text(slow.run.stdout, len(STATE_LINE)) != STATE_LINE:
        yield 'the line behind reports came late, or another one'
    out, err, status = slow.end()
    if (out, err, status) != (b'', b'', 1):
        yield f'it ended with {out}, {err} and {status} behind reports'


def replies_come_one_by_one(program):
    with tempfile.NamedTemporaryFile('w') as script:
        script.write('where\n' + 'next\nwhere\n' * 5 + 'next 3\ngoto 10\nback 1\nnext 5\nnext\n')
        script.flush()
        slow = Slow(program, '--play', script.name, '-')
        expected = b'at 0 ahead 0\n'
        for turn in range(5):
            if slow.text(slow.run.stdout, len(expected)) != expected:
                yield f'the replies before record {turn + 1} came late, or others'
            slow.give(STATE[:3])
            slow.give(STATE[3:])
            expected = b'at %d\nat %d ahead 0\n' % (turn + 1, turn + 1)
        if slow.text(slow.run.stdout, len(expected)) != expected:
            yield 'the replies before `next 3` came late, or others'
        slow.give(UNKNOWN)
        report = f'bgpdump: record 6, byte {5 * len(STATE)}: unsupported type 99 subtype 0\n'.encode()
        if slow.text(slow.run.stderr, len(report)) != report:
            yield 'the report inside `next 3` came late, or another one'
        slow.give(2 * STATE)
        if slow.text(slow.run.stdout, 5) != b'at 7\n':
            yield 'the reply before `goto` came late, or another one'
        slow.give(3 * STATE)
        if slow.text(slow.run.stdout, 11) != b'at 10\nat 9\n':
            yield 'the replies before the last commands came late, or others'
        out, err, status = slow.end()
        if (out, err, status) != (b'at 10 end\nat 10 end\n', b'', 1):
            yield f'the script ended with {out}, {err} and {status}'


def calls_of(run):
    """How many reads and writes a process made so far."""
    fields = dict(line.split(': ') for line in Path(f'/proc/{run.pid}/io').read_text().splitlines())
    return int(fields['syscr']), int(fields['syscw'])


def a_fast_input_takes_few_writes(program):
    octets = b''.join(path.read_bytes() for path in sorted(EXAMPLES.glob('*.mrt')) if path.stem not in ('damaged', 'incident'))
    octets *= 5_000_000 // len(octets)
    fast = Slow(program, '-m', '-')
    size = [0]

    def drain():
        while more := os.read(fast.run.stdout.fileno(), BUFFER):
            size[0] += len(more)

    drains = threading.Thread(target=drain)
    drains.start()
    fast.run.stdin.write(octets)
    fast.run.stdin.write(STATE)
    fast.run.stdin.flush()
    for _ in range(100 * LONGEST):
        reads, writes = calls_of(fast.run)
        waited = select.select([], [], [], 0.01)
        if (reads, writes) == calls_of(fast.run) and waited:
            break
    fast.run.stdin.close()
    drains.join()
    fast.run.wait()
    most = reads + 2 * size[0] // BUFFER + 2
    if writes > most:
        yield f'it wrote {writes} times, and not at most {most} times'


def main():
    checks = lines_come_one_by_one, reports_come_one_by_one, replies_come_one_by_one, a_fast_input_takes_few_writes
    found = [fault for check in checks for fault in check(sys.argv[1])]
    for fault in found:
        print(fault)
    print(f'slow input: {len(found) or "no"} faults')
    sys.exit(bool(found))


main()
