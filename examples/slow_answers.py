#!/usr/bin/env python3
"""Compares what ask.py and to_sqlite.sh answer over made-up lines with what follows from the definitions, slowly.

    examples/slow_answers.py

The lines, always the same, are of two collectors, of peers and prefixes of both families, of paths
that end in sets, and of sessions that are lost and come back. A peer has a route where the last line
that concerns it, up to a time, is one that announces it. Where sqlite3 isn't installed its answers
are passed over.
"""
import ipaddress
import random
import shutil
import subprocess
import sys
import tempfile
from collections import Counter
from datetime import datetime, timezone
from pathlib import Path

HERE = Path(__file__).resolve().parent
START = 1780315200  # 2026-06-01 12:00:00 UTC
PEERS = [('192.0.2.1', '64496'), ('192.0.2.2', '64497'), ('2001:db8:ffff::2', '64497'), ('2001:db8:ffff::2', '64498')]
PREFIXES = ['10.0.0.0/8', '10.1.0.0/16', '10.1.0.0/17', '10.1.2.0/24', '110.1.2.0/24', '10.1.2.0/25', '0.0.0.0/0',
            '2001:db8::/32', '2001:db8:1::/48', '2001:db8:1:2::/64', '2001:db8:1::1/128']
ORIGINS = ['64500', '64501', '4200000000', '{65551,65552}', '{64500}']
STATES = [(6, 1), (6, 1), (6, 6), (5, 6), (3, 4)]


def made_lines(seed, count, fraction):
    """Lines of a collector: some of a table, then what happens in sessions, some of it in one second."""
    dice = random.Random(seed)
    time = START
    for number in range(count):
        time += dice.choice([0, 0, 1]) if number > count // 5 else 0
        peer, prefix = '|'.join(dice.choice(PEERS)), dice.choice(PREFIXES)
        between = dice.sample(['3000', '(3001)', '3002'], dice.randrange(3))
        path = ' '.join([peer.split('|')[1], *between, dice.choice(ORIGINS)])
        announced = f'{peer}|{prefix}|{path}|IGP|192.0.2.9|0|0||NAG||'
        if number <= count // 5:
            yield f'TABLE_DUMP2|{time}|B|{announced}'
            continue
        event = dice.choices(['A', 'W', 'STATE'], [60, 35, 5])[0]
        rest = {'A': announced, 'W': f'{peer}|{prefix}', 'STATE': '%s|%d|%d' % (peer, *dice.choice(STATES))}[event]
        yield f'BGP4MP|{time}{fraction}|{event}|{rest}'


# Answers from the definitions. An event is its time, its collector and the fields of its line.

def events_of(collectors):
    """The events of all collectors in order of time; of one time, in the order of the collectors."""
    found = [(float(line.split('|')[1]), name, line.split('|')) for name, lines in collectors.items() for line in lines]
    return sorted(found, key=lambda event: event[0])


def peer_of(event):
    return event[1], event[2][3], event[2][4]


def last_of(events, peer, prefix):
    """The last event that says whether a peer has a prefix."""
    for event in reversed(events):
        fields = event[2]
        is_lost = fields[2] == 'STATE' and fields[5] == '6' != fields[6]
        if peer_of(event) == peer and (is_lost or fields[2] != 'STATE' and fields[5] == prefix):
            return fields
    return None


def path_of(events, peer, prefix):
    fields = last_of(events, peer, prefix)
    return fields[6] if fields and fields[2] in 'AB' else None


def origin_of(path):
    last = path.split(' ')[-1]
    return None if '{' in last else last


def clock(time):
    whole, point, fraction = time.partition('.')
    return datetime.fromtimestamp(int(whole), timezone.utc).isoformat()[:19] + point + fraction


def slow_who(events, prefix):
    peers = sorted(set(map(peer_of, events)))
    before = set()
    for number, event in enumerate(events, 1):
        have = {peer for peer in peers if path_of(events[:number], peer, prefix) is not None}
        if have != before:
            fields, is_more = event[2], have > before
            cause = fields[6] if is_more else {'W': 'withdrawn', 'STATE': 'session'}[fields[2]]
            what = 'gained' if is_more else 'lost'
            yield '|'.join([clock(fields[1]), what, *fields[3:5], str(len(have)), cause, event[1]])
        before = have


def slow_who_at(events, prefix):
    for peer in sorted(set(map(peer_of, events))):
        if path_of(events, peer, prefix) is not None:
            fields = last_of(events, peer, prefix)
            yield '|'.join([clock(fields[1]), *fields[3:5], fields[6], peer[0]])


def up_to(events, time):
    return [event for event in events if event[0] <= time]


def slow_changes(events, first, last):
    before, after = up_to(events, first), up_to(events, last)
    for peer in sorted(set(map(peer_of, events))):
        for prefix in sorted(PREFIXES):
            old, new = path_of(before, peer, prefix), path_of(after, peer, prefix)
            if old == new:
                continue
            what = 'gained' if old is None else 'lost'
            if None not in (old, new):
                what = 'path' if None in map(origin_of, (old, new)) or origin_of(old) == origin_of(new) else 'origin'
            yield '|'.join([what, *peer[1:], prefix, old or '', new or '', peer[0]])


def owners_of(events, prefix):
    """The origins that tables have for a prefix up to an event, or else the first."""
    found = [(fields[2], origin_of(fields[6])) for *_, fields in events if fields[2] in 'AB' and fields[5] == prefix]
    found = list(dict.fromkeys((kind, origin) for kind, origin in found if origin))
    seen, owners = set(), []
    for kind, origin in found:
        if origin not in seen and (kind == 'B' or not owners):
            owners.append(origin)
        seen.add(origin)
    return owners


def slow_parts(events):
    known = set()
    for number, (_, collector, fields) in enumerate(events, 1):
        origin = origin_of(fields[6]) if fields[2] in 'AB' else None
        if origin is None or (fields[5], origin) in known:
            continue
        known.add((fields[5], origin))
        part = ipaddress.ip_network(fields[5])
        around = [it for it in map(ipaddress.ip_network, PREFIXES)
                  if it.version == part.version and it != part and part.subnet_of(it)
                  and owners_of(events[:number], str(it))]
        whole = max(around, key=lambda it: it.prefixlen, default=None)
        owners = owners_of(events[:number], str(whole))
        if whole and origin not in owners:
            yield '|'.join([clock(fields[1]), *fields[3:6], origin, str(whole), ' '.join(owners), collector])


def slow_table(events, time):
    for _, address, number, prefix, _, path, collector in (it.split('|') for it in slow_changes(events, 0, time)):
        yield '|'.join([collector, address, number, prefix, path])


def slow_losses(events):
    """How many routes each peer lost by withdrawals, and with sessions."""
    losses = Counter()
    for prefix in PREFIXES:
        for line in slow_who(events, prefix):
            _, what, address, number, _, cause, collector = line.split('|')
            losses[collector, address, number, cause] += what == 'lost'
    return ['%s|%s|%s|%s|%d' % (*peer, count) for peer, count in losses.items() if count]


# Answers of the programs.

def answers(*words):
    return subprocess.run(list(map(str, words)), stdout=subprocess.PIPE, text=True, check=True).stdout.splitlines()


LOSSES = """
select collector, peer, peer_as, iif(ended_by = 'W', 'withdrawn', 'session') as cause, count(*)
from held where ended_by in ('W', 'STATE') group by collector, peer, peer_as, cause
"""


def differing(folder, seed):
    """Each question to which a program gives another answer."""
    collectors = {'west': list(made_lines(seed, 150, '')), 'east': list(made_lines(seed + 1, 100, '.250000'))}
    named = []
    for name, lines in collectors.items():
        (folder / name).write_text(''.join(line + '\n' for line in lines))
        named.append(f'{name}={folder / name}')
    events = events_of(collectors)
    times = [START, START + 7, START + 20.25, START + 30]
    asked = [(['who', prefix], slow_who(events, prefix)) for prefix in PREFIXES] + [(['parts'], slow_parts(events))]
    asked += [(['who', prefix, '--at', times[2]], slow_who_at(up_to(events, times[2]), prefix))
              for prefix in PREFIXES]
    asked += [(['changes', first, last], slow_changes(events, first, last)) for first, last in zip(times, times[1:])]
    for words, expected in asked:
        if answers(HERE / 'ask.py', *words, *named) != list(expected):
            yield f'ask.py {words} over lines {seed}'
    if shutil.which('sqlite3'):
        database = folder / f'{seed}.sqlite'
        for name in collectors:
            answers(HERE / 'to_sqlite.sh', database, name, folder / name)
        for time in times:
            held = answers('sqlite3', database, 'select collector, peer, peer_as, prefix, path from held '
                                                f'where since <= {time} and ifnull(until, 9e9) > {time}')
            if sorted(held) != sorted(slow_table(events, time)):
                yield f'the view held at {time} over lines {seed}'
        if sorted(answers('sqlite3', database, LOSSES)) != sorted(slow_losses(events)):
            yield f'losses in the view held over lines {seed}'


def main():
    if len(sys.argv) > 1:
        print(__doc__)
        return
    with tempfile.TemporaryDirectory() as folder:
        found = [fault for seed in (1, 3) for fault in differing(Path(folder), seed)]
    sys.exit('other answers: %s' % '; '.join(found) if found else 0)


main()
