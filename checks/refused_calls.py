"""Calls of the libraries with each of their requests for memory refused.

The program of crates/rows makes the calls of a row, and compares what has to stand where memory was refused, and else
the answer. It marks where a call begins and ends, so that neither what it is given nor comparing counts. Here these are
the rows of crates/rows/data/memory.rows and of refused_steps.py, one at a time. Of the calls of each the first request
is refused, then the second and so on until none is met, each alone, and then it and all behind it. Behind a refused step
the players go back and forth where each request is refused, and are to make none; so does what forgets steps.
"""
from itertools import count
from pathlib import Path
from typing import NamedTuple

from calling import ALL
from refused_steps import rows_of_steps

DATA = Path(__file__).resolve().parent.parent / 'crates' / 'rows' / 'data'

# Of the requests of each row, each refused alone, how many its calls answer as refused. So a refusal that is swallowed
# shows, and a new request. The check prints these lines as it finds them; a row without one is a fault.
KNOWN = {
    "attributes of a table's entry": 4,
    'attributes of an IPv6 entry': 0,
    'segments of a path': 2,
    'a message of both families': 2,
    'prefixes of a message of both families': 2,
    'a message with AS4_PATH': 2,
    'a message with a withdrawal': 2,
    'joined paths': 1,
    'a path that counts fewer systems than AS4_PATH': 1,
    'an index': 2,
    "a table's entry": 9,
    'an IPv6 entry': 7,
    'an update of both families': 7,
    'an update with AS4_PATH': 6,
    'an entry of an old table': 11,
    'an entry behind one that was given back': 55,
    'an update behind one that was given back': 44,
    'an old entry behind one that was given back': 87,
    'a body past its first block': 3,
    'attributes past 192 octets': 8,
    'attributes past 1,024 octets': 7,
    'a table': 13,
    'an IPv6 table': 11,
    'an old table': 12,
    'updates': 8,
    'updates with AS4_PATH': 7,
    'updates of two peers': 9,
    'a script over updates': 47,
    'a script over two peers': 68,
    'the first key of a store': 1,
    'a route at the first key of a store': 1,
    'a sixteenth key of a store': 4,
    'a route at a sixteenth key of a store': 4,
    'a route at the only key of a store': 0,
    'a route at a known key of a store': 0,
    'an IPv6 key that makes a branch': 2,
    'an IPv6 address that makes a branch at its last bit': 2,
    'an IPv6 key below another': 2,
    'an IPv6 key above another': 2,
    'an IPv6 key where two others branch': 2,
    'the nodes of a tree with a sixteenth key': 1,
    'the text of an address': 1,
    'the text of a prefix': 1,
    'the text of a decimal': 1,
    'the text of a path': 1,
    'a copy of a path': 3,
    'the text of communities': 1,
    "lines of a table's entry": 1,
    'lines of an update': 1,
    'a command line that asks for lines': 25,
    'a command line without a mode': 21,
    'a command line with two modes': 33,
    'a command line with standard input twice': 30,
    'a command line that asks for a script and an output': 42,
    'a command line that asks for all': 46,
    'a command line that asks for help': 56,
    "a command line with an option that there isn't": 14,
    'a command line with a second input': 24,
    'two prefixes of two new peers': 14,
    'two prefixes of IPv6 of two new peers': 22,
    'a route in place of another': 2,
    'a route in place of another behind a floor': 2,
    'a route that comes again, and one more': 7,
    'an IPv6 route that comes again, and one more': 11,
    'a loss among other items': 13,
    '25 prefixes of a message out of order': 2,
    '101 prefixes of a message out of order': 2,
    'a route behind 1,024 steps': 3,
    'a route behind 1,100 steps': 2,
    'a route behind 5,000 steps, of which one is kept': 2,
    '800 routes over 800 that differ': 5,
    'a loss in place of two steps': 4,
    'one route more than a thousand': 2,
    'the loss of a thousand routes': 5,
    'a thousand routes of a new peer': 1002,
    'places of known routes that become fewer': 3,
    'a play behind places that became fewer': 2,
    'all steps': 0,
    'all steps before others': 0,
    'most steps before others': 0,
    'steps behind a floor': 0,
    'steps of announcements and withdrawals by turns': 0,
    'steps of routes that come again': 0,
    'the first of two peers goes': 32,
    'the second of two peers goes': 32,
    'a script that prints a large table': 171,
    'an event of more than 64 items': 19,
    'lines of more than 64 items': 5,
}

# What only gives room back, and is done without where it is refused: no growth is.
OF_STEP = 'room behind the entries of a step'
OF_STEPS = 'room for steps that are gone'
# These move to a block of their own.
OF_PLACES = 'places of known routes that become fewer'

# How many of them the calls of each row do without, by what it is. Those of the others do without none.
WITHOUT = {
    'a script over updates': {OF_STEP: 2},
    'a route in place of another': {OF_STEP: 2},
    'a route in place of another behind a floor': {OF_STEP: 2},
    'a loss among other items': {OF_STEP: 2},
    '25 prefixes of a message out of order': {OF_STEP: 1},
    '101 prefixes of a message out of order': {OF_STEP: 1},
    'a route behind 5,000 steps, of which one is kept': {OF_STEPS: 1},
    'places of known routes that become fewer': {OF_PLACES: 2},
}

# The most requests, where more would tell that a step costs what the table holds.
MOST = {'one route more than a thousand': 59}


class Row:
    """A row in a file of its own, and what the program has to mark: calls, and stretches without memory."""

    def __init__(self, path, names, text):
        self.words = [str(path)]
        path.write_text(names + text)
        head, script = text.split('\n', 1)
        kind, self.title = head.split(': ', 1)
        self.is_player = kind.startswith('player')
        stores = 2 if kind == 'player' else 1
        self.unaided = stores * script.count(': alone\n')
        self.begun = stores * script.count(': mark\n')
        self.right = f'{path}: 1 rows agree\n'.encode()
        self.refused = f'{path}: 0 rows agree, 1 are refused memory\n'.encode()

    def is_answered(self, ended, *outputs):
        """Whether the row ended so, and where each request is refused there was none."""
        is_marked = ended.begun == self.begun if self.is_player else ended.begun > 0
        return (ended.err, ended.unaided, ended.asked) == (b'', self.unaided, 0) and is_marked and \
            ended.out in outputs and ended.status == (ended.out != self.right)


def rows_of_file(path):
    """The names that a file of rows gives, and its rows."""
    names, rows = [], []
    for part in path.read_text().split('\n\n'):
        lines = [line for line in part.split('\n') if line and not line.startswith('#')]
        if lines and ': ' in lines[0]:
            rows.append('\n'.join([*lines, '']))
        elif lines:
            names.append('\n'.join([*lines, '']))
    return ''.join(names), rows


def all_rows(folder):
    """Each row, in a file of its own."""
    names, rows = rows_of_file(DATA / 'memory.rows')
    for number, text in enumerate(rows):
        yield Row(folder / f'memory-{number}.rows', names, text)
    for number, text in enumerate(rows_of_steps()):
        yield Row(folder / f'steps-{number}.rows', '', text)


def fault(row, what, ended):
    return '%s, %s: status %d, %r, and %d requests where none is to be made' % (
        row.title, what, ended.status, (ended.out + ended.err)[-300:], ended.asked)


class Found(NamedTuple):
    """How many requests are answered as refused, and how many are done without: which only give room back in their
    block, and others."""
    refused: int
    fewer: int
    others: int

    def line(self, title):
        without = ', without %d that give room back, and %d others' % self[1:] if self.fewer or self.others else ''
        return '    %r: %d,%s' % (title, self.refused, without and '  #' + without[1:])


def refuse(calls, row):
    """Refuses the requests of a row: how many are answered and done without, and what is wrong."""
    faults, refused, fewer = [], 0, 0
    for number in count(1):
        for last in (number, ALL):
            ended = calls.run(row.words, 'memory', number, last)
            # What is done without where all behind it is refused too only gives room back.
            may_be_right = last == number or ended.fewer == ended.failed
            wanted = (row.right,) * may_be_right + (row.refused,) * (ended.failed > 0)
            if not row.is_answered(ended, *wanted):
                others = ' and all behind it' if last == ALL else ''
                faults.append(fault(row, 'request %d%s refused' % (number, others), ended))
            is_refused = ended.out == row.refused
            if last == number:
                refused += is_refused
                fewer += 0 if is_refused else ended.fewer
        if ended.failed == 0 or faults:
            return Found(refused, fewer, number - 1 - refused - fewer), faults


def faults_of_numbers(title, made, found):
    """What is wrong with how many requests are answered and done without."""
    if sum(found) != made:
        yield '%s: of %d requests %d were met' % (title, made, sum(found))
    if made > MOST.get(title, ALL):
        yield '%s: %d requests are too many' % (title, made)
    if found.refused != KNOWN.get(title):
        yield '%s: %s answered requests are known, and %d were seen' % (title, KNOWN.get(title, 'no'), found.refused)
    yield from faults_of_without(title, found, WITHOUT.get(title, {}))


def faults_of_without(title, found, known):
    """What is wrong with how many requests are done without, of which so many are known by what they are."""
    others = known.get(OF_PLACES, 0)
    fewer = sum(known.values()) - others
    if (found.fewer, found.others) != (fewer, others):
        yield '%s: %d requests that give room back and %d others are done without, where %d and %d are known' % (
            title, found.fewer, found.others, fewer, others)


def faults_of_row(calls, row):
    """Runs a row, prints how many requests it makes, and gives what is wrong."""
    right = calls.run(row.words)
    if not row.is_answered(right, row.right):
        return [fault(row, 'with all that it asks for', right)]
    found, faults = refuse(calls, row)
    print(found.line(row.title), flush=True)
    return faults or list(faults_of_numbers(row.title, right.made['memory'], found))


def faults_of_rows(calls):
    """Runs each row."""
    rows = list(all_rows(calls.folder))
    titles = [row.title for row in rows]
    print('Requests that are answered as refused:')
    return ['%s: there is no such row' % title for title in (KNOWN | WITHOUT) if title not in titles] + \
        [what for row in rows for what in faults_of_row(calls, row)]
