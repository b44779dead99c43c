#!/usr/bin/env python3
"""Runs the built program, and calls of the libraries, with each request for memory refused and more.

    checks/refusals.py [PROGRAM] [--rows ROWS]

A library that is loaded before the C library, refusing.c beside this file, counts the calls and lets
them fail; it takes a C compiler. Where nothing fails, `-m` prints what stands beside the example. Of
each call of the program the first request for memory is refused, then the second and so on, each
alone, and then it and all behind it. Then each read and each write fails, or moves a single octet.
Whatever fails, the outputs are fronts of the right texts, the status is that of the manual page, and
the last message is there. A long file asks for memory as often as a short one.

ROWS is the program of crates/rows: refused_calls.py says what becomes of its calls.
"""
import argparse
import errno
import os
import sys
import tempfile
from dataclasses import dataclass
from pathlib import Path

from calling import ALL, Calls
from refused_calls import faults_of_rows
from steady_memory import faults_of_long_runs

EXAMPLES = Path(__file__).resolve().parent.parent / 'examples'

SCRIPT = ''.join(line + '\n' for line in (
    'next 40', 'peers', 'forget 10', 'table 192.0.2.1 64496', 'lookup 192.0.2.3 65536 198.51.100.1', 'back 5',
    'lose 192.0.2.2 64497', 'foo', 'next 4294967295', 'peers', 'route 192.0.2.1 64496 198.51.100.0/24'))

OUT_OF_MEMORY, READ_FAULT, WRITE_FAULT = (
    b'bgpdump: %s\n' % what for what in (b'out of memory', b'read fault', b'write fault'))


# What is done without where it is refused, by what it is: room that is given back in its block, and what is no growth
# of ours. The reader of words tries other spellings of a value, and says of those alone what it has memory for.
OF_PATHS = 'room for segments of longer paths'
SPELLINGS = 'spellings of a value that are compared with others'
# Once in each call, where the standard library collects the words: refused that, it asks for less.
OF_WORDS = 'room for all words at once'

# How many of them each call does without besides OF_WORDS, by its words. Those of the others do without none.
WITHOUT = {
    '-m old-table.mrt': {OF_PATHS: 2},
    '-t none -m one': {SPELLINGS: 5},
}


@dataclass(frozen=True)
class Call:
    """Words of the program, what it is given as standard input, and the file that it writes, where it does."""
    words: list
    given: str = os.devnull
    output: Path | None = None
    has_devices: bool = True

    def run(self, calls, *failing):
        """How a run of the call ended. What it wrote to its output stands behind what it printed."""
        if self.output:
            self.output.unlink(missing_ok=True)
        ended = calls.run(self.words, *failing, given=self.given)
        if self.output and self.output.exists():
            ended.out += self.output.read_bytes()
        return ended

    def shown(self):
        given = '' if self.given == os.devnull else ' <' + Path(self.given).name
        return ' '.join(Path(word).name for word in self.words) + given


def is_whole(ended, right):
    return (ended.status, ended.out, ended.err) == (right.status, right.out, right.err)


def is_front(ended, right, status, message, may_be_lost=False):
    """Whether the outputs are fronts of the right texts, with the last message behind the reports."""
    if ended.status != status or not right.out.startswith(ended.out):
        return False
    if ended.err.endswith(message) and right.err.startswith(ended.err[:len(ended.err) - len(message)]):
        return True
    return may_be_lost and right.err.startswith(ended.err)


def fault(call, what, ended):
    return '%s, %s: status %d, %d octets printed, and last %r' % (
        call.shown(), what, ended.status, len(ended.out), ended.err[-80:])


def compare_stored(call, right):
    """Compares what is printed where nothing fails with the texts that stand beside an example."""
    example = Path(call.words[-1])
    if call.words[0] == '-m' and example.suffix == '.mrt':
        for what, found in (('.lines', right.out), ('.reports', right.err)):
            if example.with_suffix(what).read_bytes() != found:
                yield fault(call, 'its %s differ' % what[1:], right)


def refuse_memory(calls, call, right):
    """Refuses each request, alone and with all behind it. Those that are done without are known by what they are."""
    refusals = fewer = others = 0
    for number in range(1, right.made['memory'] + 1):
        for last in (number, ALL):
            ended = call.run(calls, 'memory', number, last)
            is_whole_still = is_whole(ended, right) and (last == number or ended.fewer == ended.failed)
            if ended.failed == 0 or not is_whole_still and not is_front(ended, right, 4, OUT_OF_MEMORY):
                behind = ' and all behind it' if last == ALL else ''
                yield fault(call, 'request %d%s refused, %d met' % (number, behind, ended.failed), ended)
            refusals += not is_whole_still
            if is_whole_still and last == number:
                fewer += ended.fewer
                others += 1 - ended.fewer
    if refusals == 0:
        yield '%s: no refused request was met' % call.shown()
    known = {OF_WORDS: 1} | WITHOUT.get(call.shown(), {})
    not_ours = sum(number for what, number in known.items() if what in (OF_WORDS, SPELLINGS))
    if (fewer, others) != (sum(known.values()) - not_ours, not_ours):
        yield '%s: %d requests that give room back and %d others are done without, where %d and %d are known' % (
            call.shown(), fewer, others, sum(known.values()) - not_ours, not_ours)


def fail_devices(calls, call, right):
    """Lets each read and each write fail, and then all of them move one octet."""
    for kind, message in (('read', READ_FAULT), ('write', WRITE_FAULT)):
        if right.made[kind] == 0:
            yield '%s: no %s is counted' % (call.shown(), kind)
        for number in range(1, right.made[kind] + 1):
            for error in (errno.EIO, errno.EINTR):
                ended = call.run(calls, kind, number, number, error)
                is_retried = error == errno.EINTR and is_whole(ended, right)
                if not is_retried and not is_front(ended, right, 3, message, may_be_lost=kind == 'write'):
                    yield fault(call, '%s %d fails with %s' % (kind, number, errno.errorcode[error]), ended)
        ended = call.run(calls, kind, 1, ALL)
        if not is_whole(ended, right):
            yield fault(call, 'each %s moves one octet' % kind, ended)


def calls_over_examples(script):
    for mode, names in ((('-m',), ('table.mrt', 'old-table.mrt', 'updates.mrt', 'session-changes.mrt', 'damaged.mrt')),
                        (('-t', 'change', '-m'), ('table.mrt',)),
                        (('--play', script), ('incident.mrt', 'damaged.mrt'))):
        for name in names:
            yield Call([*mode, str(EXAMPLES / name)])


def calls_of_other_words(script, out):
    """Calls that write to a file, that read standard input, and of words that begin no run."""
    updates, incident = str(EXAMPLES / 'updates.mrt'), str(EXAMPLES / 'session-changes.mrt')
    yield Call(['-m', '-O', str(out), updates], output=out)
    yield Call(['--play', script, '-O', str(out), incident], output=out)
    yield Call(['-m', '-'], updates)
    yield Call(['--play', script, '-'], incident)
    yield Call(['--play', '-', incident], script)
    yield Call(['-m', '-O', str(out), '-'], updates, out)
    for words in (['--help'], ['-m', '-v', 'input'], ['-x'], ['-m', 'one', 'two'], ['-m'], ['-t', 'none', '-m', 'one'],
                  ['one'], ['--play', '-', '-'], ['-m', 'no-such-file'], ['--play', 'no-such-file', '-']):
        yield Call(words, has_devices=False)


def faults_of_program(calls):
    """Runs the program over examples/, prints how many requests it makes, and gives what is wrong."""
    script = calls.folder / 'script'
    script.write_text(SCRIPT)
    print('requests   reads   writes   call')
    for call in (*calls_over_examples(str(script)), *calls_of_other_words(str(script), calls.folder / 'out')):
        right = call.run(calls)
        print('%8d   %5d   %6d   %s' % (*right.made.values(), call.shown()), flush=True)
        yield from compare_stored(call, right)
        yield from refuse_memory(calls, call, right)
        if call.has_devices:
            yield from fail_devices(calls, call, right)


def main():
    words = argparse.ArgumentParser(usage=__doc__, add_help=False)
    words.add_argument('program', nargs='?', type=Path)
    words.add_argument('--rows', type=Path)
    asked = words.parse_args()
    if asked.program is None and asked.rows is None:
        sys.exit(__doc__)
    faults = []
    with tempfile.TemporaryDirectory() as folder:
        if asked.program:
            calls = Calls(asked.program.resolve(), Path(folder))
            faults += faults_of_program(calls)
            faults += faults_of_long_runs(calls)
        if asked.rows:
            faults += faults_of_rows(Calls(asked.rows.resolve(), Path(folder), marked=True))
    for what in faults:
        print(what)
    print('refusals: %s' % ('no faults' if not faults else '%d faults' % len(faults)))
    sys.exit(1 if faults else 0)


if __name__ == '__main__':
    main()
