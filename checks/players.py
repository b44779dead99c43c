#!/usr/bin/env python3
"""Has players make generated calls, and compares what they answer with a plain player.

    checks/players.py ROWS [--seed S]

ROWS is the built program that carries out rows (crates/rows). The plain player keeps no table: it keeps what
each event says of each pair of a peer and a prefix, and searches that for each answer. It is written from the
manual page and docs/definitions.md. Most calls are drawn, of two mixtures; others are many: hundreds of
thousands of steps, prefixes of an event, thousands of peers, of refused events, of routes that are let go
or are one in memory.
"""
import argparse
import bisect
import itertools
import random
import subprocess
import sys
import tempfile
from functools import lru_cache
from pathlib import Path
from typing import NamedTuple

PEER, NEIGHBOUR, SIBLING = '192.0.2.1 64500', '192.0.2.1 64501', '192.0.2.2 64500'
TEN = '10.0.0.0/8'
ANY = 2 ** 64 - 1
LARGE = 'player tree'
# The seconds that the program may take.
LONGEST = 100


def announce(peer, prefix, time, octets=''):
    return f'+{peer} {prefix} {time} {octets}'.rstrip(), (peer, prefix), time


def withdraw(peer, prefix):
    return f'-{peer} {prefix}', (peer, prefix), None


def lose(peer):
    return f'={peer} 6 1', peer, None


def stay(peer):
    """A change of states that loses nothing."""
    return f'={peer} 5 6', (), None


def numbered(number):
    """The prefix of 24 bits of this number."""
    return f'{10 + (number >> 16)}.{number >> 8 & 255}.{number & 255}.0/24'


class Plain:
    """What events say of pairs, by the events' numbers, the cursor, and how many steps were forgotten."""

    def __init__(self):
        self.said, self.pairs, self.named = {}, [], []
        self.cursor = self.floor = 0

    def meant(self, items):
        """What an event says of each pair, in the end."""
        meant = {}
        for _, subject, time in items:
            if isinstance(subject, str):
                meant.update({pair: None for pair in [*self.said, *meant] if pair[0] == subject})
            elif subject:
                meant[subject] = time
        return meant

    def time_of(self, pair):
        """The time of the route of a pair, or None."""
        said = self.said.get(pair, [])
        found = bisect.bisect_left(said, (self.cursor,))
        return said[found - 1][2] if found else None

    def is_wanted(self, pair):
        """Whether a pair has a route, or a kept step names it."""
        said = self.said.get(pair, [])
        kept = range(bisect.bisect_left(said, (self.floor,)), len(said))
        return self.time_of(pair) is not None or any(said[number][1] for number in kept)

    def keys_of(self, peer):
        return sum(self.is_wanted(pair) for pair in self.said if pair[0] == peer)

    def ahead(self):
        return len(self.pairs) - self.cursor

    def is_refused(self, meant, allowed):
        """Whether a key is wanted that may not be made: each peer with keys may make as many as are allowed."""
        new = [pair for pair, time in meant.items() if time is not None and not self.is_wanted(pair)]
        if any(prefix.startswith('66.') for _, prefix in new):
            return True
        return any(keys < sum(pair[0] == peer for pair in new) for peer, keys in allowed.items())

    def play(self, items, allowed):
        """How many steps are dropped, or None where the event is refused."""
        meant = self.meant(items)
        if self.is_refused(meant, allowed):
            return None
        dropped = self.ahead()
        for pairs in self.pairs[self.cursor:]:
            for pair in pairs:
                self.said[pair].pop()
        del self.pairs[self.cursor:], self.named[self.cursor:]
        named = 0
        for pair, time in meant.items():
            is_named = time is not None or self.time_of(pair) is not None
            self.said.setdefault(pair, []).append((self.cursor, is_named, time))
            named += is_named
        self.pairs.append(list(meant))
        self.named.append(named)
        self.cursor += 1
        return dropped

    def go(self, is_back):
        if self.cursor == self.floor if is_back else not self.ahead():
            return 'no step'
        self.cursor += -1 if is_back else 1
        return 'done'

    def forget(self, keep):
        floor = max(self.floor, self.cursor - keep)
        forgotten, self.floor = floor - self.floor, floor
        return forgotten


class Course:
    """A row: the lines of its script, and what the plain player answers.

    It is for a player over either store, or, where much is asked, for that over trees alone."""

    def __init__(self, title, kind='player'):
        self.title, self.kind, self.plain = title, kind, Plain()
        self.lines, self.answers, self.allowed = [], [], {}

    def ask(self, line, answer):
        self.lines.append(line)
        self.answers.append(answer)
        return answer

    def play(self, *items):
        dropped = self.plain.play(items, self.allowed)
        words = ', '.join(text for text, _, _ in items)
        return self.ask(f'play {words}', 'refused' if dropped is None else f'dropped {dropped}')

    def go(self, is_back):
        self.allowed = {}
        return self.ask('undo' if is_back else 'redo', self.plain.go(is_back))

    def forget(self, keep):
        self.allowed = {}
        return self.ask(f'forget {keep}', f'forgot {self.plain.forget(keep)}')

    def allow(self, peer, keys):
        """Rations the new keys of a peer that has some."""
        has_store = self.plain.keys_of(peer) > 0
        self.allowed[peer] = keys if has_store else ANY
        self.ask(f'allow {peer} {keys}', 'allowed' if has_store else 'no store')

    def steps(self):
        plain = self.plain
        named = sum(plain.named[plain.floor:])
        self.ask('steps', f'at {plain.cursor} ahead {plain.ahead()} named {named}')
        self.ask('floor', f'floor {plain.floor}')

    def keys(self, peer):
        count = self.plain.keys_of(peer)
        self.ask(f'keys {peer}', f'keys {count}' if count else 'no store')
        self.ask(f'nodes {peer}', 'few nodes' if count else 'no store')

    def key(self, peer, prefix):
        has_store, is_key = self.plain.keys_of(peer), self.plain.is_wanted((peer, prefix))
        self.ask(f'key {peer} {prefix}', ('key' if is_key else 'no key') if has_store else 'no store')

    def route(self, peer, prefix):
        time = self.plain.time_of((peer, prefix))
        self.ask(f'route {peer} {prefix}', 'none' if time is None else f'at {time}')

    def within(self, question, least, most):
        self.ask(f'{question} {least} {most}', 'within')

    def text(self):
        return (f'{self.kind}: {self.title}\n' + ''.join(f': {line}\n' for line in self.lines)
                + ''.join(f'> {answer}\n' for answer in self.answers) + '\n')


# Drawn calls.

PAIRED = PEER, NEIGHBOUR
PREFIXES = TEN, '11.0.0.0/8', 'a00::/8', 'b00::/8', '66.0.0.0/8'
# Those that come and go by turns, one of each family.
BY_TURNS = PREFIXES[0], PREFIXES[2]


class Mixture(NamedTuple):
    """How many calls, and of 120 how many play, undo, and redo; the others forget."""
    title: str
    calls: int
    plays: int
    undos: int
    redos: int
    # How many plays of 120 let pairs come and go by turns.
    turns: int
    # Forgetting leaves fewer steps than these before the cursor.
    kept: int
    # All is compared behind one of so many calls.
    compared: int


MIXTURES = (Mixture('few steps, which are dropped and forgotten all the time', 2_000, 50, 40, 20, 0, 7, 1),
            Mixture('some hundred steps, in which a few pairs come and go', 1_200, 84, 18, 16, 100, 250, 12))
# How often calls of the first mixture answer so at least, and of the second: with a number above 0, where there
# is one.
MET = {'refused': 20, 'dropped': 50, 'forgot': 50, 'no step': 20}, {'refused': 50, 'dropped': 50, 'forgot': 5}


def drawn_items(drawn, time):
    for number in range(drawn.randrange(5)):
        peer, kind = PAIRED[drawn.randrange(3) == 0], drawn.randrange(10)
        of_twelve = drawn.randrange(12)
        prefix = PREFIXES[of_twelve % 4 if of_twelve else 4]
        if kind < 6:
            yield announce(peer, prefix, time + number)
        else:
            yield (withdraw(peer, prefix), withdraw(peer, prefix), lose(peer), stay(peer))[kind - 6]


def turning_items(drawn, plain, time):
    """Pairs that have a route lose it, and others get one."""
    for peer in PAIRED:
        for prefix in BY_TURNS:
            if drawn.randrange(2):
                has_route = plain.time_of((peer, prefix)) is not None
                yield withdraw(peer, prefix) if has_route else announce(peer, prefix, time)
    if drawn.randrange(10) == 0:
        yield announce(NEIGHBOUR, PREFIXES[4], time)


def play_drawn(course, drawn, mixture, time):
    """Plays an event, and once more with ample memory where it may make few keys and is refused."""
    is_turning = drawn.randrange(120) < mixture.turns
    items = list(turning_items(drawn, course.plain, time) if is_turning else drawn_items(drawn, time))
    answer = 'refused'
    if drawn.randrange(2):
        keys = drawn.randrange(2)
        for peer in PAIRED:
            course.allow(peer, keys)
        answer = course.play(*items)
        compare(course)
        for peer in PAIRED:
            course.allow(peer, ANY)
    if answer == 'refused':
        course.play(*items)


def compare(course):
    course.steps()
    for peer in PAIRED:
        course.keys(peer)
        for prefix in PREFIXES:
            course.route(peer, prefix)
            course.key(peer, prefix)


def drawn_course(mixture, seed):
    course, drawn = Course(mixture.title), random.Random(f'{seed} {mixture.title}')
    for number in range(mixture.calls):
        kind = drawn.randrange(120)
        if kind < mixture.plays:
            play_drawn(course, drawn, mixture, number * 4)
        elif kind < mixture.plays + mixture.undos + mixture.redos:
            course.go(kind < mixture.plays + mixture.undos)
        else:
            course.forget(drawn.randrange(mixture.kept))
        if number % mixture.compared == 0:
            compare(course)
    return course


# Many steps.

def forgotten_course():
    """A hundred steps are kept of a hundred thousand."""
    course = Course('A hundred thousand steps, of which a hundred are kept', LARGE)
    for number in range(100_000):
        course.play(withdraw(PEER, TEN) if number % 2 else announce(PEER, TEN, 100))
        if number % 100 == 99:
            course.forget(100)
    course.steps()
    for _ in range(101):
        course.go(True)
    course.keys(PEER)
    course.play()
    course.keys(PEER)
    return course


def come_and_go(course, start, end):
    for number in range(start, end):
        course.play(announce(PEER, numbered(number), number))
        course.play(withdraw(PEER, numbered(number)))


def only_step_course(count):
    """Of all kept steps the last alone names a prefix that was withdrawn before."""
    course = Course(f'The only step of {2 * count + 1} that names a prefix', LARGE)
    come_and_go(course, 0, count)
    course.play(announce(PEER, numbered(7), 7))
    for keep in (count + 1, 1):
        course.forget(keep)
        course.steps()
        course.keys(PEER)
    course.go(True)
    course.play()
    course.keys(PEER)
    return course


def dropped_course():
    """Of 5,000 steps 3,000 are undone and dropped by one that names a prefix again, and 1,200 follow."""
    course = Course('Many steps are dropped', LARGE)
    come_and_go(course, 0, 2_500)
    for _ in range(3_000):
        course.go(True)
    course.play(announce(PEER, numbered(7), 7))
    come_and_go(course, 3_000, 3_600)
    for keep in (1_201, 1):
        course.forget(keep)
        course.keys(PEER)
    return course


def all_kept_course(kind, rounds):
    """A pair of each family comes and goes so often, and all steps are kept: so often it is claimed."""
    course, pairs = Course(f'Two pairs come and go {rounds} times, and all steps are kept', kind), (TEN, 'a00::/8')
    for number in range(rounds):
        course.play(*[announce(PEER, prefix, number % 3) for prefix in pairs])
        course.play(*[withdraw(PEER, prefix) for prefix in pairs])
    cross_kept(course, pairs, 5)
    course.play(announce(PEER, TEN, 100))
    for keep in (rounds, 3, 1, 0):
        course.forget(keep)
        cross_kept(course, pairs, min(keep, 2))
    course.play(withdraw(PEER, TEN))
    course.forget(0)
    course.keys(PEER)
    return course


def cross_kept(course, prefixes, steps):
    """Goes so many steps back, and forth but for one, and asks for all."""
    for is_back in [None] + [True] * steps + [False] * (steps - 1):
        if is_back is not None:
            course.go(is_back)
        course.steps()
        course.keys(PEER)
        for prefix in prefixes:
            course.route(PEER, prefix)


def kept_steps_course(count):
    """So many steps are kept, each of one of a hundred prefixes."""
    course = Course(f'{count} steps are kept', LARGE)
    for number in range(count):
        prefix = numbered(number % 100)
        course.play(withdraw(PEER, prefix) if number % 3 == 2 else announce(PEER, prefix, number % 5))
    prefixes = [numbered(number) for number in range(100)]
    cross_kept(course, prefixes, 3)
    course.play(announce(PEER, numbered(7), 7))
    for keep in (count // 2, 1_000, 3):
        course.forget(keep)
        cross_kept(course, prefixes, 2)
    return course


# Steps of many pairs.

def first_numbered(count, time=None):
    """Announcements of the first numbered prefixes by the peer, of one time or each of its own."""
    return [announce(PEER, numbered(number), number if time is None else time) for number in range(count)]


def crossed_course(count):
    course = Course(f'A step of {count} pairs is crossed')
    course.play(*first_numbered(count))
    for is_back in (None, True, False):
        if is_back is not None:
            course.go(is_back)
        for number in range(count):
            course.route(PEER, numbered(number))
        course.keys(PEER)
    return course


def after_small_step(course, number):
    for before in range(max(number - 3, 0), number + 3):
        course.route(PEER, numbered(before))
    for peer in PAIRED:
        course.route(peer, '2001:db8::/32')


def small_steps_course():
    """Steps of three pairs, crossed from positions of each kind."""
    course, count = Course('Steps of a few pairs are crossed'), 50
    for number in range(count):
        before = [withdraw(PEER, numbered(number - 1))] if number else []
        course.play(announce(PEER, numbered(number), number), *before,
                    announce(PAIRED[number % 2], '2001:db8::/32', number))
        after_small_step(course, number)
    for steps in (-21, 9, -39, 51):
        for _ in range(abs(steps)):
            course.go(steps < 0)
            after_small_step(course, course.plain.cursor)
    return course


def lost_peer_course():
    """One of three peers is lost, and comes back by a step back."""
    course, prefixes = Course('The lost peer alone is cleared'), [f'{octet}.0.0.0/8' for octet in range(1, 51)]
    for time, peer in enumerate((PEER, NEIGHBOUR, SIBLING)):
        course.play(*[announce(peer, prefix, time) for prefix in prefixes])
    course.play(lose(PEER))
    for is_back in (None, True):
        if is_back:
            course.go(is_back)
        for peer in (PEER, NEIGHBOUR, SIBLING):
            for prefix in prefixes:
                course.route(peer, prefix)
    return course


def many_prefixes_course():
    course, count = Course('An event of a hundred thousand prefixes', LARGE), 100_000
    text, pair, time = announce(PEER, numbered(0), 7)
    course.play((text, pair, time), *[(f'*{PEER} {numbered(number)}', (PEER, numbered(number)), 7)
                                      for number in range(1, count)])
    course.route(PEER, numbered(count - 1))
    course.play(lose(PEER))
    course.route(PEER, numbered(count - 1))
    course.steps()
    return course


def many_peers_course():
    """A table of 3,000 peers, played twice with other times."""
    course, peers = Course('A table of many peers is played twice', LARGE), []
    for number in range(3_000):
        peers.append(f'198.51.{number >> 8}.{number & 255} {64_512 + number}')
    for times in (0, 1_000_000):
        for prefix in range(3):
            course.play(*[announce(peer, numbered(prefix), times + 10_000 * prefix + number, f'800404 {number:08X}')
                          for number, peer in enumerate(peers)])
        for peer in peers:
            for prefix in range(3):
                course.route(peer, numbered(prefix))
    course.forget(0)
    for peer in peers:
        course.route(peer, numbered(2))
    return course


def message(number, time):
    """The announcements of a hundred prefixes with one route."""
    prefixes = [numbered(100 * number + at) for at in range(100)]
    first = announce(PEER, prefixes[0], time, f'800404 {number:08X}')
    return [first, *[(f'*{PEER} {prefix}', (PEER, prefix), time) for prefix in prefixes[1:]]]


def announced_twice_course(kind, messages):
    """A table is announced, lost and announced again, and the first round is forgotten, then the second."""
    course = Course(f'A table of {messages} messages is announced twice and forgotten', kind)
    for number in range(messages):
        course.play(*message(number, number))
    course.play(lose(PEER))
    for number in range(messages):
        course.play(*message(number, 1_000_000 + number))
    course.steps()
    for keep in (messages, 0):
        course.forget(keep)
        course.steps()
        course.keys(PEER)
        course.ask('peers', f'peers, {100 * messages} of {PEER}')
        for number in range(messages):
            course.route(PEER, numbered(100 * number + number % 100))
    course.go(True)
    return course


# What is asked of stores.

def few_calls_course():
    """A step of one prefix takes few calls, however many routes there are, and one to make its key."""
    course = Course('A small step takes few calls')
    course.play(*first_numbered(1_000))
    course.within(f'requests {PEER}', 1, 1_000)
    course.ask('count', 'counted')
    course.play(announce(PEER, '11.0.0.0/8', 1))
    course.within(f'calls {PEER}', 1, 20)
    course.within(f'requests {PEER}', 0, 1)
    for is_back in (True, False):
        course.ask('count', 'counted')
        course.go(is_back)
        course.within(f'calls {PEER}', 1, 20)
    course.keys(PEER)
    course.ask('count', 'counted')
    course.ask('peers', f'peers, 1001 of {PEER}')
    course.within(f'calls {PEER}', 1, 1)
    course.ask(f'after {PEER}', f'{numbered(0)} at 0')
    course.within(f'calls {PEER}', 2, 2)
    for is_back in (True, True, False, False):
        course.go(is_back)
        course.within(f'reached {PEER}', 0, 0)
    return course


# How many steps of how many pairs are crossed, and how many pairs one may reach: those of eight steps.
SMALL_STEPS, SMALL, MOST_REACHED = 24, 7, 56


def cross_small_steps(course, is_back):
    """Crosses all, then crosses back and again: each step reaches few pairs, and all of them some."""
    for _ in range(SMALL_STEPS):
        course.ask('count', 'counted')
        course.go(is_back)
        course.within(f'reached {PEER}', 0, MOST_REACHED)
        # An exchange for each pair, a count behind it, and what reaches them.
        course.within(f'calls {PEER}', 0, 3 * SMALL + 3)
    for _ in range(SMALL_STEPS):
        course.go(not is_back)
    course.ask('count', 'counted')
    for _ in range(SMALL_STEPS):
        course.go(is_back)
    course.within(f'reached {PEER}', 1, SMALL_STEPS * MOST_REACHED)


def few_reached_course():
    """In a large store the places of pairs are reached before they are crossed, of few at a time; those of
    a step of fewer than eight aren't before it is played."""
    course = Course('A small step reaches few pairs', LARGE)
    course.play(*first_numbered(5_000))
    course.within(f'reached {PEER}', 1, 5_000)
    for _ in range(SMALL_STEPS):
        course.ask('count', 'counted')
        course.play(*first_numbered(SMALL))
        course.within(f'reached {PEER}', 0, 0)
    cross_small_steps(course, True)
    cross_small_steps(course, False)
    course.keys(PEER)
    return course


# Routes in memory.

# A path of 255 numbers: such a route takes 1,276 octets, 192, 64 for the segment and 4 a number.
LONG, LONG_OCTETS = '5002 2{ 02FF x255{ 0000FBF4 } }', 1_276
MANY, FEW = 3_000, 100
# How many are alive at most where a hundred are held: these, and of those that nobody holds a quarter of their
# octets and a MiB more.
MOST_ALIVE = FEW + (FEW * LONG_OCTETS // 4 + 2 ** 20) // LONG_OCTETS


def announce_long(course, time):
    for number in range(MANY):
        course.play(announce(PEER, numbered(number), time + number, LONG))


def routes_of_long(course):
    for number in range(MANY):
        course.route(PEER, numbered(number))


def let_go_course(title, forget_each):
    """All but a hundred are withdrawn, and what they had is let go as steps are forgotten."""
    course = Course(title, LARGE)
    announce_long(course, 0)
    if forget_each:
        course.forget(0)
    for number in range(FEW, MANY):
        course.play(withdraw(PEER, numbered(number)))
        if forget_each:
            course.forget(0)
    if not forget_each:
        course.within('alive', MANY, MANY)
        course.forget(0)
    course.within('alive', FEW, MOST_ALIVE)
    routes_of_long(course)
    course.keys(PEER)
    return course


def dropped_routes_course():
    """The routes of steps ahead that a play drops are let go by the next play."""
    course = Course('Routes of dropped steps are let go', LARGE)
    announce_long(course, 0)
    for _ in range(FEW, MANY):
        course.go(True)
    course.play(withdraw(PEER, numbered(0)))
    course.play(withdraw(PEER, numbered(0)))
    course.within('alive', FEW, MOST_ALIVE)
    return course


def refused_long_course():
    """Events with long routes are refused, half of them behind a pair that is put, and what they had is let go."""
    course = Course('Ten thousand events with long routes are refused', LARGE)
    for number in range(FEW):
        course.play(announce(PEER, numbered(number), number, LONG))
    course.within('alive', FEW, FEW)
    for number in range(10_000):
        put = [announce(PEER, numbered(number % FEW), 20_000 + number, LONG)] * (number % 2)
        course.play(*put, announce(PEER, '66.0.0.0/8', 1_000 + number, LONG))
    # The routes of the last event aren't looked at yet.
    course.within('alive', FEW, MOST_ALIVE + 2)
    course.steps()
    course.keys(PEER)
    for number in range(FEW):
        course.route(PEER, numbered(number))
    return course


def changing_course():
    """Routes become more, fewer and more again."""
    course = Course('Routes stay right while others are let go', LARGE)
    for time in (0, 10_000, 20_000):
        announce_long(course, time)
        course.forget(50)
        routes_of_long(course)
        for number in range(FEW, MANY):
            course.play(withdraw(PEER, numbered(number)))
        course.forget(50)
        routes_of_long(course)
        for is_back in (True, False):
            for _ in range(50):
                course.go(is_back)
            course.route(PEER, numbered(MANY - 50))
    return course


# The hash of a plain route, of a time and a metric alone, as crates/known_routes/src/route_hash.rt has it, and the rows
# of the first places in which a route of a hash may stand (place.rt there).

MULTIPLIER, NO_ORIGIN, HAS_METRIC, COMMUNITIES = 0x9E37_79B9_7F4A_7C15, 3, 1 << 5, 4
SECOND_ROW, ROWS = 0x9E37_79B1, 255


def mixed(value, *numbers):
    for number in numbers:
        product = (value ^ number) * MULTIPLIER
        value = product >> 64 ^ product & (1 << 64) - 1
    return value


def rows_of_plain(time):
    """Metrics, each with the two rows of its plain route."""
    front = mixed(0, time | (NO_ORIGIN | HAS_METRIC) << 32)
    for metric in itertools.count():
        # No preference, no segments and no communities.
        value = mixed(front, metric << 32, COMMUNITIES) >> 32
        yield metric, (value * ROWS >> 32, (value * SECOND_ROW & (1 << 32) - 1) * ROWS >> 32)


@lru_cache
def metrics_of_one_place(time=7, count=24):
    """Metrics of plain routes that may stand at the same eight places alone."""
    found = {}
    for metric, rows in rows_of_plain(time):
        alike = found.setdefault(rows, [])
        alike.append(metric)
        if len(alike) == count:
            return alike


def communities_of_one_hash(count=64):
    """Pairs of communities of plain routes of time 7 whose hashes are one."""
    start = mixed(0, 7 | NO_ORIGIN << 32, 0, 2 << 3 | COMMUNITIES)
    by_product = {(number * MULTIPLIER & (1 << 64) - 1) >> 32: number for number in range(1 << 20)}
    found, wanted = [], 0x1234_5678
    for high in itertools.count():
        above = wanted ^ high * MULTIPLIER >> 64
        low = by_product.get(above - high * MULTIPLIER & (1 << 32) - 1)
        if low is not None:
            pair = start ^ (high << 32 | low)
            if mixed(start, pair) >> 32 == wanted:
                found.append((pair & (1 << 32) - 1, pair >> 32))
                if len(found) == count:
                    return found


FULL = {'origin': ('40010100', 'IGP'), 'hop': ('400304 C0000209', '192.0.2.9'),
        'path': ('4002 1{ 0202 0000FBF4 0000FBF5 0102 0000FBF6 0000FBF7 }', '64500 64501 {64502,64503}'),
        'metric': ('800404 0000000A', '10'), 'preference': ('400504 00000064', '100'), 'atomic': ('400600', 'AG'),
        'aggregator': ('C00708 0000FBF4 C0000207', '64500 192.0.2.7'),
        'communities': ('C008 1{ 00000001 00000002 }', '0:1 0:2')}
NONE = '', ''
OTHERS = (
    ('hop', '400304 C0000309', '192.0.3.9'), ('hop', *NONE), ('origin', '40010101', 'EGP'), ('origin', *NONE),
    ('preference', '400504 00000000', '0'), ('preference', *NONE), ('metric', '800404 00000000', '0'),
    ('metric', *NONE), ('atomic', '', 'NAG'), ('aggregator', *NONE),
    ('aggregator', 'C00708 0000FBF4 C0000208', '64500 192.0.2.8'),
    ('aggregator', 'C00708 0000FBF5 C0000207', '64501 192.0.2.7'),
    ('path', '4002 1{ 0202 0000FBF4 0000FBF5 0202 0000FBF6 0000FBF7 }', '64500 64501 64502 64503'),
    ('path', '4002 1{ 0203 0000FBF4 0000FBF5 0000FBF6 0101 0000FBF7 }', '64500 64501 64502 {64503}'),
    ('path', '4002 1{ 0102 0000FBF6 0000FBF7 0202 0000FBF4 0000FBF5 }', '{64502,64503} 64500 64501'),
    ('path', '4002 1{ 0202 0000FBF4 0000FBF5 0102 0000FBF6 0000FBF8 }', '64500 64501 {64502,64504}'),
    ('path', '4002 1{ 0202 0000FBF4 0000FBF5 }', '64500 64501'), ('path', '4002 00', ''),
    ('communities', 'C008 1{ 00000002 00000001 }', '0:2 0:1'), ('communities', 'C008 1{ 00000001 }', '0:1'),
    ('communities', 'C008 1{ 00000001 00000002 00000002 }', '0:1 0:2 0:2'), ('communities', *NONE))


def shown(attributes):
    of = {name: text for name, (_, text) in attributes.items()}
    return '{path}|{origin}|{hop}|{preference}|{metric}|{communities}|{atomic}|{aggregator}'.format(**of)


def play_copies(course, routes):
    """Two peers announce the numbered prefixes with routes of these times and octets, each with its own."""
    for peer in (PEER, SIBLING):
        course.play(*[announce(peer, numbered(number), time, octets)
                      for number, (time, octets) in enumerate(routes)])


def equal_routes_course():
    """Routes that differ in one thing alone."""
    course, variants = Course('Equal routes are one, and no others'), [(7, FULL), (8, FULL)]
    variants += [(7, {**FULL, name: (octets, text)}) for name, octets, text in OTHERS]
    play_copies(course, [(time, ' '.join(octets for octets, _ in attributes.values() if octets))
                         for time, attributes in variants])
    for number, (_, attributes) in enumerate(variants):
        for peer in (PEER, SIBLING):
            course.route(peer, numbered(number))
            course.ask(f'shown {peer} {numbered(number)}', shown(attributes))
    course.within(f'shared {PEER} {SIBLING}', len(variants), len(variants))
    course.within('alive', len(variants), len(variants))
    return course


def plain_routes_course(title, metrics, least, most):
    course = Course(title, LARGE)
    play_copies(course, [(7, f'800404 {metric:08X}') for metric in metrics])
    for number, metric in enumerate(metrics):
        for peer in (PEER, SIBLING):
            course.ask(f'shown {peer} {numbered(number)}', f'||||{metric}||NAG|')
    course.within(f'shared {PEER} {SIBLING}', least, most)
    return course


def one_hash_course():
    """Routes of one hash are known again."""
    pairs = communities_of_one_hash()
    course = Course('Routes of one hash are known again', LARGE)
    play_copies(course, [(7, 'C00808 %08X %08X' % pair) for pair in pairs])
    course.within(f'shared {PEER} {SIBLING}', len(pairs), len(pairs))
    return course


# Attributes that differ in one number, by which routes are to be told apart before they are compared: a hash that
# leaves it out has them all at eight places and beyond, and an order that leaves it out loses most of them there.
VARYING = {
    'the next hop': '400304 {0:08X}', 'the metric': '800404 {0:08X}', 'the preference': '400504 {0:08X}',
    'the aggregator': 'C00708 {0:08X} C0000207', "the aggregator's address": 'C00708 0000FBF4 {0:08X}',
    'a number of the path': '4002 1{{ 0202 0000FBF4 {0:08X} }}',
    'a segment of the path': '4002 1{{ 0201 0000FBF4 0101 {0:08X} }}', 'a community': 'C008 1{{ 00000001 {0:08X} }}',
}


def varying_course(what, attributes):
    """Most of many routes that differ in one number are known again."""
    course = Course(f'Routes are known again that differ in {what}', LARGE)
    play_copies(course, [(7, attributes.format(number + 1)) for number in range(FEW)])
    course.within(f'shared {PEER} {SIBLING}', FEW // 10 * 9, FEW)
    return course


# What else a hash goes by has few values, or is a time: routes of each value that would all stand at eight places.
KINDS_OF_VALUES = {
    'the origin': (['', '40010100', '40010101', '40010102'], [7]), 'the mark of aggregation': (['', '400600'], [7]),
    'the time': ([''], [7, 8, 9, 10]), 'how many numbers the path has': (['', '4002 06 0201 00000000'], [7]),
    'how many communities there are': (['', 'C00804 00000000'], [7]),
}


def one_place_course(what, values, times):
    """Of routes for one place, those with another value may stand elsewhere."""
    course = Course(f'Routes for the same places stand elsewhere by {what}', LARGE)
    routes = [(time, f'{value} 800404 {metric:08X}') for time in times for value in values
              for metric in metrics_of_one_place()]
    play_copies(course, routes)
    course.within(f'shared {PEER} {SIBLING}', 20, len(routes))
    return course


def courses(seed):
    for mixture, met in zip(MIXTURES, MET):
        course = drawn_course(mixture, seed)
        for word, least in met.items():
            count = sum(answer.startswith(word) and answer != f'{word} 0' for answer in course.answers)
            if count < least:
                sys.exit(f'players: "{word}" is answered {count} times, wanted {least}')
        yield course
    yield from (forgotten_course(), only_step_course(300), only_step_course(2_500), dropped_course(),
                all_kept_course('player', 300), all_kept_course(LARGE, 70_000), kept_steps_course(300_000))
    yield from map(crossed_course, (1, 2, 7, 8, 9, 15, 16, 17, 100))
    yield from (small_steps_course(), lost_peer_course(), many_prefixes_course(), many_peers_course(),
                announced_twice_course('player', 100), announced_twice_course(LARGE, 300), few_calls_course(), few_reached_course(),
                let_go_course('Routes of forgotten steps are let go at once', False),
                let_go_course('Routes are let go while steps are forgotten', True),
                dropped_routes_course(), refused_long_course(), changing_course(), equal_routes_course(),
                one_hash_course(),
                plain_routes_course('Routes for the same places are known again', metrics_of_one_place(), 24, 24),
                plain_routes_course('Most of many equal routes are one', range(MANY), MANY // 10 * 9 + 1, MANY))
    yield from (varying_course(what, attributes) for what, attributes in VARYING.items())
    yield from (one_place_course(what, *values) for what, values in KINDS_OF_VALUES.items())


def main():
    parser = argparse.ArgumentParser(description='Has players make generated calls.')
    parser.add_argument('rows')
    parser.add_argument('--seed', type=int, default=1)
    args = parser.parse_args()
    with tempfile.TemporaryDirectory() as room:
        file = Path(room, 'players.rows')
        texts = [course.text() for course in courses(args.seed)]
        file.write_text(''.join(texts))
        run = subprocess.run([Path(args.rows).resolve(), file.name], cwd=room, capture_output=True, text=True,
                             timeout=LONGEST, check=False)
    if run.returncode or run.stdout != f'{file.name}: {len(texts)} rows agree\n':
        sys.exit(f'players: {run.stdout[:2_000]}{run.stderr}')
    print(f'players: {len(texts)} courses of calls are answered as by a plain player')


main()
