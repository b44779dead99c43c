#!/usr/bin/env python3
"""Damages MRT files, runs the built program over them, and compares what it writes with a reading of its own.

    checks/damage.py PROGRAM [--count N] [--seed S]

Files are made of new records of every kind that the program reads and of some that it doesn't, and of records of
examples/. In some of them parts are changed, dropped, repeated, exchanged or taken from another record, with
lengths and counts that fit or don't; in some octets are, and so are whole files. Each case depends on its number
and the seed alone. Compared are the status and both outputs of `-m`, or for every tenth case those of `--play`,
with what checks/reading.py and checks/writing.py make of the file by the RFCs and the manual page.

It ends with 1 at the first difference, keeps the file, and prints the least of its records that still show it. In
a run of the usual number of cases it also does where a kind of fault, a part that can be malformed or a kind of
content was never met.
"""
import argparse
import random
import subprocess
import sys
import tempfile
import textwrap
from collections import Counter
from itertools import zip_longest
from pathlib import Path
from typing import NamedTuple

import reading
import writing
from making import Damage, Maker, octets_of, records_in

EXAMPLES = Path(__file__).resolve().parent.parent / 'examples'
USUAL_COUNT = 3_000
# The seconds that a call may last.
LONGEST_CALL = 20
# How many times a file with large lists has the usual number of them.
LARGE = 50

# What a run of the usual number has to meet.
FAULTS = ('cut record', 'too long', 'unsupported', 'malformed', 'no peer index', 'peer index')
MALFORMED = (
    'microseconds', 'session', 'family of a session', 'message', 'length of a message', 'UPDATE', 'PEER_INDEX_TABLE',
    'RIB', 'TABLE_DUMP', 'list of prefixes', 'length of a prefix', 'list of attributes', 'ORIGIN', 'AS_PATH',
    'type of a segment', 'segment of no numbers', 'NEXT_HOP', 'MULTI_EXIT_DISC', 'LOCAL_PREF', 'ATOMIC_AGGREGATE',
    'AGGREGATOR', 'COMMUNITIES', 'MP_REACH_NLRI', 'length of a next hop', 'MP_UNREACH_NLRI', 'second MP_REACH_NLRI',
    'second MP_UNREACH_NLRI',
)
CONTENTS = (
    *reading.RECORDS.values(), *reading.MESSAGES.values(), 'message of another type', *reading.ATTRIBUTES.values(),
    'unknown attribute', 'extended length', 'second attribute of a type', *reading.ORIGINS, *reading.SEGMENTS.values(),
    'MP_REACH_NLRI of full form in an entry', 'family that is not read', 'AS4 attributes ignored',
    'AS4_AGGREGATOR in place of AGGREGATOR', 'AS4_PATH discarded', 'AS4_PATH merged', 'AS4_PATH longer than AS_PATH',
    'withdrawn IPv4', 'withdrawn IPv6', 'announced IPv4', 'announced IPv6', 'next hop IPv4', 'next hop IPv6',
    *reading.WELL_KNOWN.values(), 'session lost', 'other change of state',
)


# Cases.

class Case(NamedTuple):
    """A file, how it is read, and how far the player goes back where it is played, else 0."""
    octets: bytes
    change: bool
    through_input: bool
    back: int


class Cases:
    """The cases of a seed by their numbers."""

    def __init__(self, seed):
        self.seed = seed
        self.examples = [list(records_in(path.read_bytes())) for path in sorted(EXAMPLES.glob('*.mrt'))]

    def case(self, at):
        chance = random.Random('%s %d' % (self.seed, at))
        back = chance.randint(1, 12) if at % 10 == at // 10 % 10 else 0
        return Case(self.file(chance), change=at % 2 == 1, through_input=chance.random() < 0.05, back=back)

    def file(self, chance):
        luck, damage = chance.random(), Damage(chance)
        if luck < 0.01:
            return b''
        records = self.of_examples(chance) if luck < 0.2 else []
        large = luck > 0.99
        records += made(chance, damage, large) if luck > 0.1 else []
        records = [damaged(chance, damage, octets, chance.choice(records)) for octets in records]
        if chance.random() < 0.1:
            chance.shuffle(records)
        octets = b''.join(records)
        if not large and chance.random() < 0.02:
            # Of more octets than the program reads or writes at once.
            octets *= chance.randint(2, 40)
        return damage.in_octets(octets, chance.choice(records)) if chance.random() < 0.2 else octets

    def of_examples(self, chance):
        """Some records of an example, behind its first one."""
        records = chance.choice(self.examples)
        start = chance.randrange(len(records))
        return records[:1] + records[start:start + chance.randint(1, 12)]


def made(chance, damage, large):
    """The octets of new records, in some of which parts are damaged."""
    maker = Maker(chance, LARGE if large else 1)
    index = [maker.index()] if chance.random() < 0.9 else []
    records = [maker.any_record() for _ in range(chance.randint(1, 4 if large else 24))]
    for record in records:
        while chance.random() < 0.4:
            damage.in_parts(record, chance.choice(records))
    return [octets_of(record) for record in index + records]


def damaged(chance, damage, octets, donor):
    """The octets of a record, of some with damage, and some of them twice."""
    luck = chance.random()
    if luck < 0.08:
        return damage.in_body(octets, donor)
    if luck < 0.1:
        return damage.in_header(octets)
    return octets * 2 if luck < 0.15 else octets


# Expected and found.

class Written(NamedTuple):
    """The status of a run, and what it wrote on both outputs."""
    status: int
    lines: list
    reports: list


class Expected(NamedTuple):
    """What should be written, the script where the case is played, and what the records are."""
    written: Written
    script: str
    results: list


def expected_of(case):
    results = list(reading.results_of(case.octets, case.change))
    reports = [writing.report_of(result) for result in results if result.fault]
    events = [result.event for result in results if result.event]
    if case.back:
        script, lines = played(events, case.back)
    else:
        script, lines = None, [line for event in events for line in writing.lines_of(event)]
    return Expected(Written(1 if reports else 0, lines, reports), script, results)


def played(events, back):
    """A script that goes to the end and then back, and asks for all tables each time, and its replies."""
    before = max(len(events) - back, 0)
    ways = (('next 4294967295', 'at %d end' % len(events), writing.tables_after(events)),
            ('back %d' % back, 'at %d' % before, writing.tables_after(events[:before])))
    peers = sorted({peer for _, _, tables in ways for peer in tables}, key=writing.by_address)
    commands, replies = [], []
    for command, reply, tables in ways:
        commands += [command, 'peers']
        replies += [reply, *writing.peers_reply(tables)]
        for peer in peers:
            commands.append('table ' + writing.peer_text(peer).replace('|', ' '))
            replies += writing.table_reply(tables, peer)
    return '\n'.join(commands), replies


def lines_in(octets):
    """The lines of a text; an end without a line feed is told apart."""
    *lines, end = octets.decode('ascii', 'backslashreplace').split('\n')
    return lines + [end + ' (no line feed)'] if end else lines


def first_difference(expected, found):
    """A text on the first thing that differs, or None."""
    for what, wanted, got in (('line', expected.lines, found.lines), ('report', expected.reports, found.reports)):
        for at, (one, other) in enumerate(zip_longest(wanted, got, fillvalue='nothing'), 1):
            if one != other:
                return '%s %d\n  expected %s\n  found    %s' % (what, at, one, other)
    if expected.status != found.status:
        return 'status\n  expected %s\n  found    %s' % (expected.status, found.status)
    return None


def of_pieces(case, pieces):
    return case._replace(octets=b''.join(pieces))


class Judge:
    """Runs the program over cases, in a folder of its own."""

    def __init__(self, program, folder):
        self.program, self.folder = program, folder

    def written(self, case, script):
        """What the program writes."""
        file, steps = self.folder / 'case.mrt', self.folder / 'steps'
        file.write_bytes(case.octets)
        mode = ['-m']
        if case.back:
            steps.write_text(script)
            mode = ['--play', str(steps)]
        call = [self.program, *mode, '-t', 'change' if case.change else 'dump',
                '-' if case.through_input else str(file)]
        with file.open('rb') as stream:
            try:
                run = subprocess.run(call, stdin=stream, capture_output=True, timeout=LONGEST_CALL)
            except subprocess.TimeoutExpired:
                return Written('none in %d seconds' % LONGEST_CALL, [], [])
        return Written(run.returncode, lines_in(run.stdout), lines_in(run.stderr))

    def difference(self, case, expected):
        return first_difference(expected.written, self.written(case, expected.script))

    def differs(self, case):
        return self.difference(case, expected_of(case)) is not None

    def least(self, case, results):
        """The case with the least front of its records that differs, and of these as few as still do."""
        ends = [result.offset for result in results[1:]] + [len(case.octets)]
        pieces = [case.octets[start:end] for start, end in zip([0] + ends, ends)]
        count = next((it for it in range(len(pieces)) if self.differs(of_pieces(case, pieces[:it]))), len(pieces))
        pieces = pieces[:count]
        for at in reversed(range(len(pieces))):
            if self.differs(of_pieces(case, pieces[:at] + pieces[at + 1:])):
                del pieces[at]
        return of_pieces(case, pieces)

    def tell(self, case, expected):
        """Prints a case that differs, and keeps its file."""
        with tempfile.NamedTemporaryFile(prefix='damage-', suffix='.mrt', delete=False) as kept:
            kept.write(case.octets)
        print('the file: %s, read with -t %s, %s' % (
            kept.name, 'change' if case.change else 'dump',
            '--play, %d steps back' % case.back if case.back else '-m'))
        print(self.difference(case, expected))
        least = self.least(case, expected.results)
        print('the least of its records that differ: ' + least.octets.hex())
        print(self.difference(least, expected_of(least)))


# What was met.

class Met:
    """Counts what the cases of a run hold."""

    def __init__(self):
        self.statuses, self.faults, self.parts, self.contents = Counter(), Counter(), Counter(), Counter()
        self.played = self.records = self.lines = self.reports = 0

    def add(self, case, expected):
        self.played += case.back > 0
        self.statuses[expected.written.status] += 1
        self.records += len(expected.results)
        self.lines += len(expected.written.lines)
        self.reports += len(expected.written.reports)
        for result in expected.results:
            if result.event:
                self.contents.update(contents_of(result.event))
            else:
                self.faults[result.fault.kind] += 1
                self.parts.update([result.fault.part] if result.fault.part else [])

    def missing(self):
        wanted = ((FAULTS, self.faults), (MALFORMED, self.parts), (CONTENTS, self.contents), ((0, 1), self.statuses))
        return ['%s' % name for names, met in wanted for name in names if not met[name]]

    def tell(self):
        print('damage: %s cases, %s of them played, %s records, %s lines, %s reports' % tuple(map(grouped, (
            self.statuses.total(), self.played, self.records, self.lines, self.reports))))
        for what, met in (('status', self.statuses), ('reported', self.faults), ('malformed', self.parts),
                          ('read', self.contents)):
            counts = ', '.join('%s %s' % (name, grouped(count)) for name, count in met.most_common())
            print(textwrap.fill('%s: %s' % (what, counts), 110, initial_indent='  ', subsequent_indent='    '))


def grouped(value):
    return format(value, ',')


def contents_of(event):
    """Names of what a record holds."""
    names = set(event.notes)
    for item in event.items:
        match item:
            case reading.Announce(_, (address, _), route):
                names.add('announced ' + reading.FAMILIES[len(address)])
                names |= contents_of_route(route.attributes)
            case reading.Withdraw(_, (address, _)):
                names.add('withdrawn ' + reading.FAMILIES[len(address)])
            case reading.State(_, old, new):
                names.add('session lost' if old == reading.ESTABLISHED != new else 'other change of state')
    return names


def contents_of_route(attributes):
    names = {reading.SEGMENTS[kind] for kind, _ in attributes.path}
    names |= {reading.WELL_KNOWN[it] for it in attributes.communities if it in reading.WELL_KNOWN}
    if attributes.origin:
        names.add(attributes.origin)
    if attributes.next_hop:
        names.add('next hop ' + reading.FAMILIES[len(attributes.next_hop)])
    return names


def asked_words():
    words = argparse.ArgumentParser(usage=__doc__, add_help=False)
    words.add_argument('program', type=Path)
    words.add_argument('--count', type=int, default=USUAL_COUNT)
    words.add_argument('--seed', default='1')
    return words.parse_args()


def main():
    asked = asked_words()
    cases, met = Cases(asked.seed), Met()
    with tempfile.TemporaryDirectory() as folder:
        judge = Judge(str(asked.program.resolve()), Path(folder))
        for at in range(asked.count):
            case = cases.case(at)
            expected = expected_of(case)
            met.add(case, expected)
            if judge.difference(case, expected):
                print('damage: case %d of seed %s differs' % (at, asked.seed))
                judge.tell(case, expected)
                sys.exit(1)
    met.tell()
    if asked.count >= USUAL_COUNT and met.missing():
        sys.exit('damage: never met: ' + ', '.join(met.missing()))


main()
