#!/usr/bin/env python3
"""Finds steps of the player (`bgpdump --play`), to go to.

    examples/step.py at TIME .. INPUT
    examples/step.py of LINE .. INPUT

at  prints the last step at or before each time. INPUT is an MRT file, or - for standard input. Times
    are of UTC, as 2026-06-01T12:30, or seconds since 1970. Where steps before that one are later,
    since the file isn't in order of time, a note on standard error tells how many.
of  prints the step of each line of `bgpdump -m` for a route (A, B or W): the first in its second
    after which the peer's route to the prefix has its time and path, or, for a withdrawal, after
    which there is no route. INPUT is an MRT file.

Each record is a step, but those that `bgpdump` reports. It is looked for on the PATH. Where it reads
no further, since a record is cut or too long, its report is passed on, and the status is 1.
"""
import argparse
import re
import struct
import subprocess
import sys
import tempfile
from array import array
from datetime import datetime, timezone

LONGEST = 16_777_216  # octets of a record; behind one that states more nothing is read
MICROSECONDS = 17  # the type of records that begin with them (BGP4MP_ET)


# What compressed files begin with, and what unpacks them.
UNPACKERS = {rb'\x1f\x8b\x08': 'zcat', rb'BZh[1-9]1AY&SY': 'bzcat', rb'\xfd7zXZ\0': 'xzcat',
             rb'\x28\xb5\x2f\xfd': 'zstdcat'}

MISTAKES = {'at': 'not times', 'of': 'not whole lines with A, B or W (for STATE ask `at` its time)'}


def time(word):
    """The microseconds since 1970."""
    if number := re.fullmatch(r'(\d+)(?:\.(\d{1,6}))?', word):
        return int(number[1] + (number[2] or '').ljust(6, '0'))
    date = datetime.fromisoformat(re.sub('Z$', '+00:00', word))
    date = date if date.tzinfo else date.replace(tzinfo=timezone.utc)
    return int(date.timestamp()) * 1_000_000 + date.microsecond


def time_of(line):
    """The time of a line. It is an error if it isn't a whole one of A, B or W."""
    _, moment, kind, _, _, _, *rest = line.split('|')
    if kind not in ('A', 'B', 'W') or kind != 'W' and not rest:
        raise ValueError
    return time(moment)


def unpacker(file):
    """The program that unpacks a file, if it is compressed."""
    first = file.peek(10)
    return next((program for form, program in UNPACKERS.items() if re.match(form, first)), None)


def records(file, copy):
    """The time of each record, whose octets go to another file too."""
    while len(header := file.read(12)) == 12:
        seconds, kind, length = struct.unpack('>IHxxI', header)
        body = file.read(length) if length <= LONGEST else b''
        copy.write(header + body)
        yield seconds * 1_000_000 + (int.from_bytes(body[:4], 'big') if kind == MICROSECONDS else 0)
        if len(body) < length:
            break


def step_times(file):
    """The time of each step, in microseconds since 1970, and the report after which nothing is read."""
    with tempfile.TemporaryFile('w+') as reports:
        with subprocess.Popen(['bgpdump', '-m', '-'], stdin=subprocess.PIPE, stdout=subprocess.DEVNULL,
                              stderr=reports) as program:
            times = array('q', records(file, program.stdin))
        reports.seek(0)
        faulty, last, others = set(), '', ''
        for report in reports:
            if number := re.match(r'bgpdump: record (\d+), ', report):
                faulty.add(int(number[1]))
                last = report if report.endswith((' cut record\n', ' too long\n')) else ''
            else:
                others += report
    if others:  # the run ended before the end of the input
        sys.exit(others.rstrip('\n'))
    return [time for number, time in enumerate(times, 1) if number not in faulty], last


def step_at(times, moment, word):
    step = next((step for step in range(len(times), 0, -1) if times[step - 1] <= moment), 0)
    later = sum(time > moment for time in times[:step])
    if later:
        print('steps before %d that are later than %s: %d' % (step, word, later), file=sys.stderr)
    return step


def is_found(reply, kind, second, path):
    fields = reply.split('|')
    return reply == 'none' if kind == 'W' else fields[:2] == ['RIB', str(second)] and fields[6] == path


def step_of(name, times, moment, line):
    """The step of a line, for which scripts of at most ten thousand steps ask."""
    _, _, kind, address, number, prefix, *rest = line.split('|')
    path, second = rest[0] if rest else None, moment // 1_000_000
    steps = [step for step, time in enumerate(times, 1) if time // 1_000_000 == second]
    for first in range(0, len(steps), 10_000):
        part = steps[first:first + 10_000]
        script = ''.join(f'goto {step}\nroute {address} {number} {prefix}\n' for step in part)
        run = subprocess.run(['bgpdump', '--play', '-', name], input=script, stdout=subprocess.PIPE,
                             stderr=subprocess.DEVNULL, text=True)
        for step, reply in zip(part, run.stdout.splitlines()[1::2]):
            if is_found(reply, kind, second, path):
                return step
    return sys.exit('no step has the line %s' % line)


def main():
    program = argparse.ArgumentParser(usage='%(prog)s (at TIME .. | of LINE ..) INPUT', description=__doc__,
                                      formatter_class=argparse.RawDescriptionHelpFormatter)
    program.add_argument('question', choices=['at', 'of'], help=argparse.SUPPRESS)
    program.add_argument('words', nargs='+', help=argparse.SUPPRESS)
    program.add_argument('input', help=argparse.SUPPRESS)
    wanted = program.parse_args()
    try:
        moments = [time(word) if wanted.question == 'at' else time_of(word) for word in wanted.words]
    except ValueError:
        program.error('%s: %s' % (MISTAKES[wanted.question], ' '.join(wanted.words)))
    if wanted.question == 'of' and wanted.input == '-':
        program.error('of asks for a file')
    try:
        with open(0 if wanted.input == '-' else wanted.input, 'rb') as file:
            if program := unpacker(file):
                sys.exit('%s: compressed; %s unpacks it' % (wanted.input, program))
            times, last = step_times(file)
    except OSError as fault:
        sys.exit('%s: %s' % (fault.filename or 'bgpdump', fault.strerror))
    sys.stderr.write(last)
    if not times and last:
        sys.exit(1)
    for word, moment in zip(wanted.words, moments):
        print(step_at(times, moment, word) if wanted.question == 'at' else step_of(wanted.input, times, moment, word))
    sys.exit(1 if last else 0)


main()
