#!/usr/bin/env python3
"""Asks the lines of `bgpdump -m` about prefixes, over all peers.

    examples/ask.py who PREFIX [LINES ..]
    examples/ask.py changes FROM UNTIL [LINES ..]
    examples/ask.py parts [LINES ..]

who      each gain and loss of the prefix: time, gained or lost, peer, AS number, how many peers
         have it now, and the path, or what took it: withdrawn or session. Another path of a peer
         that has it is neither. With --at TIME, the peers that have it then: time of the route,
         peer, AS number, path
changes  what differs between two times: gained, lost, path or origin; peer, AS number, prefix,
         old path, new path
parts    each prefix and origin, once, where the longest prefix around it has other origins, which
         are those in tables, or the first: time, peer, AS number, prefix, origin, the prefix around
         it and its origins

LINES are files, or - for standard input, which is read where no file is named. They are read one
behind the other, so in order of time; where times go back between files, or in one by more than a
minute, a note on standard error tells. NAME=FILE is of the collector NAME, which has peers of its own; the name stands
last in what is printed. Several collectors are read in order of time, if each is in that order.

Times are of UTC, as 2026-06-01T12:30, or seconds since 1970; a table at a time has the lines of
that time too. A session that leaves state 6 takes all routes of its peer with it. A path that ends
in a set has no single origin.
"""
import argparse
import heapq
import itertools
import re
import signal
import sys
from datetime import datetime, timezone
from ipaddress import ip_network
from socket import AF_INET, AF_INET6, inet_pton


# The words of the command.

def time(word):
    """The seconds since 1970."""
    if re.fullmatch(r'\d+(\.\d+)?', word):
        return float(word)
    date = datetime.fromisoformat(re.sub('Z$', '+00:00', word))
    return (date if date.tzinfo else date.replace(tzinfo=timezone.utc)).timestamp()


def prefix(word):
    """The prefix as lines spell it."""
    return str(ip_network(word, strict=False))


# What stands behind each question, in front of the files.
ARGUMENTS = {'who': {'prefix': prefix}, 'changes': {'first': time, 'last': time}, 'parts': {}}


def settings():
    program = argparse.ArgumentParser(usage='%(prog)s (who PREFIX | changes FROM UNTIL | parts) [LINES ..]',
                                      description=__doc__, formatter_class=argparse.RawDescriptionHelpFormatter)
    program.add_argument('question', choices=ARGUMENTS, help=argparse.SUPPRESS)
    program.add_argument('words', nargs='*', help=argparse.SUPPRESS)
    program.add_argument('--from', dest='first', type=time, default=0, metavar='TIME',
                         help='who, parts: print nothing before this time, though earlier lines count')
    program.add_argument('--until', dest='last', type=time, default=float('inf'), metavar='TIME',
                         help='who, parts: pass over the lines behind this time')
    program.add_argument('--at', type=time, metavar='TIME', help='who: print who has the prefix at this time')
    found = program.parse_intermixed_args()
    arguments = ARGUMENTS[found.question]
    if len(found.words) < len(arguments):
        program.error('%s asks for %s' % (found.question, ' and '.join(arguments)))
    for (name, reading), word in zip(arguments.items(), found.words):
        try:
            setattr(found, name, reading(word))
        except ValueError:
            program.error('%s is not a %s' % (word, reading.__name__))
    found.lines = found.words[len(arguments):] or ['-']
    return found


# Lines.

def lines_of(file):
    """The lines of a file. The program ends where the first isn't one of `bgpdump -m`."""
    with open(0 if file == '-' else file, encoding='latin-1') as lines:
        for first in itertools.islice(lines, 1):
            if not first.startswith(('TABLE_DUMP', 'BGP4MP')):
                sys.exit('%s: not lines of bgpdump -m' % file)
            yield first
        yield from lines


def time_of(line):
    return float(line.split('|', 2)[1])


def lines_in_turn(files):
    """The lines of files. A note tells where times go back, except in tables: theirs may be those of the routes."""
    latest, is_noted = 0, False
    for file in files:
        earliest = latest
        for line in lines_of(file):
            time = time_of(line)
            if time < earliest and not is_noted and '|B|' not in line:
                print('%s: not in order of time: %s' % (file, line.rstrip('\n')), file=sys.stderr)
                is_noted = True
            latest = max(latest, time)
            earliest = latest - 60
            yield line


def all_lines(words):
    """Each line behind the name of its collector."""
    files = {}
    for word in words:
        name, equals, file = word.partition('=')
        is_named = equals and '/' not in name
        files.setdefault(name if is_named else '', []).append(file if is_named else word)
    collectors = [zip(itertools.repeat(name), lines_in_turn(names)) for name, names in files.items()]
    return collectors[0] if len(collectors) == 1 else heapq.merge(*collectors, key=lambda pair: time_of(pair[1]))


def is_loss(fields):
    """Whether a session leaves state 6 (Established)."""
    return fields[2] == 'STATE' and fields[5] == '6' and fields[6].rstrip('\n') != '6'


def origin_of(path):
    last = path.rsplit(' ', 1)[-1]
    return last if last.isdigit() else None


def clock(time):
    whole, point, fraction = time.partition('.')
    return datetime.fromtimestamp(int(whole), timezone.utc).strftime('%Y-%m-%dT%H:%M:%S') + point + fraction


def show(collector, *fields):
    print('|'.join([*fields, collector] if collector else fields))


# Questions.

def who(lines, wanted):
    have, is_named = {}, False  # the peers, each with the time and the path of its route
    for collector, line in lines:
        if wanted.prefix not in line and '|STATE|' not in line:
            continue
        _, time, kind, address, number, *rest = fields = line.rstrip('\n').split('|')
        is_named = is_named or rest[0] == wanted.prefix
        if float(time) > wanted.last or not is_loss(fields) and rest[0] != wanted.prefix:
            continue
        peer, has = (collector, address, number), kind in ('A', 'B')
        had = have.pop(peer, None) is not None
        if has:
            have[peer] = time, rest[1]
        if had != has and float(time) >= wanted.first:
            show(collector, clock(time), 'gained' if has else 'lost', address, number, str(len(have)),
                 rest[1] if has else 'withdrawn' if kind == 'W' else 'session')
    if not is_named:
        sys.exit('no line names %s' % wanted.prefix)
    return have


def who_at(lines, wanted):
    wanted.first, wanted.last = float('inf'), wanted.at
    for (collector, address, number), (time, path) in sorted(who(lines, wanted).items()):
        show(collector, clock(time), address, number, path)


def play(tables, peer, fields):
    """Plays a line over the paths of each peer's prefixes."""
    if fields[2] in ('A', 'B'):
        tables.setdefault(peer, {})[fields[5]] = fields[6]
    elif fields[2] == 'W':
        tables.get(peer, {}).pop(fields[5].rstrip('\n'), None)
    elif is_loss(fields):
        tables.pop(peer, None)


def difference(old, new):
    if old is None or new is None:
        return 'gained' if old is None else 'lost'
    origins = {origin_of(old), origin_of(new)}
    return 'origin' if len(origins) == 2 and None not in origins else 'path'


def changes(lines, wanted):
    before, after = {}, {}
    for collector, line in lines:
        fields = line.split('|', 7)
        time, peer = float(fields[1]), (collector, fields[3], fields[4])
        if time <= wanted.first:
            play(before, peer, fields)
        if time <= wanted.last:
            play(after, peer, fields)
    for peer in sorted(before.keys() | after.keys()):
        old, new = before.get(peer, {}), after.get(peer, {})
        for prefix in sorted(old.keys() | new.keys()):
            paths = old.get(prefix), new.get(prefix)
            if paths[0] != paths[1]:
                show(peer[0], difference(*paths), *peer[1:], prefix, paths[0] or '', paths[1] or '')


class Origins:
    """The origins of each prefix: those in tables, or the first."""

    def __init__(self):
        self.lengths = {32: [], 128: []}  # of the prefixes of each family, the longest first
        self.found = {}  # by family, length and bits: the prefix, and its origins in order

    @staticmethod
    def bits(prefix):
        """The bits of the family's addresses, the length, and the bits of the prefix up to it."""
        address, _, length = prefix.partition('/')
        octets = inet_pton(AF_INET6 if ':' in address else AF_INET, address)
        size, length = 8 * len(octets), int(length)
        return size, length, int.from_bytes(octets, 'big') >> size - length

    def around(self, prefix):
        """The longest known prefix around this one, and its origins."""
        size, length, bits = self.bits(prefix)
        shorter = (it for it in self.lengths[size] if it < length)
        keys = ((size, it, bits >> length - it) for it in shorter)
        return next((self.found[key] for key in keys if key in self.found), None)

    def add(self, prefix, origin, is_in_table):
        key = size, length, _ = self.bits(prefix)
        if length not in self.lengths[size]:
            self.lengths[size] = sorted([*self.lengths[size], length], reverse=True)
        owners = self.found.setdefault(key, (prefix, []))[1]
        if is_in_table or not owners:
            owners.append(origin)


def parts(lines, wanted):
    known, origins = set(), Origins()
    for collector, line in lines:
        fields = line.split('|', 7)
        if fields[2] not in ('A', 'B') or float(fields[1]) > wanted.last:
            continue
        _, time, kind, address, number, prefix, path, _ = fields
        origin = origin_of(path)
        if origin is None or (prefix, origin) in known:
            continue
        known.add((prefix, origin))
        origins.add(prefix, origin, kind == 'B')
        whole, owners = origins.around(prefix) or (None, [origin])
        if origin not in owners and float(time) >= wanted.first:
            show(collector, clock(time), address, number, prefix, origin, whole, ' '.join(owners))


def main():
    wanted = settings()
    for ending in (signal.SIGINT, signal.SIGPIPE):
        signal.signal(ending, signal.SIG_DFL)
    sys.stdout.reconfigure(line_buffering=wanted.question != 'changes')
    questions = {'who': who if wanted.at is None else who_at, 'changes': changes, 'parts': parts}
    try:
        questions[wanted.question](all_lines(wanted.lines), wanted)
    except (IndexError, ValueError):
        sys.exit('a line is cut, or not one of bgpdump -m')
    except OSError as fault:
        sys.exit('%s: %s' % (fault.filename, fault.strerror))


main()
