#!/usr/bin/env python3
"""Runs the built program over files whose shape another party chooses, and bounds what they cost.

    checks/shapes.py PROGRAM

Each file is made in two sizes, the second twice the first. The peak of memory of each is bounded by a number that
stands below, and the processor time of the larger is at most 2.6 times that of the smaller, each the least of three
runs. Where it is more, which on a busy machine may be by what others leave of the caches, instructions decide, if
valgrind is there to count them, and else three more runs, four times at most. A line tells the peaks, the times in
milliseconds, and how often the second holds the first. Then held.py bounds what is held behind large things. It takes
a C compiler, for usage.c and refusing.c beside this file.
"""
import sys
import tempfile
from functools import partial
from pathlib import Path
from typing import Callable, NamedTuple

import shaped
from calling import Calls
from held import faults_of_held
from using import MIB, PEAK_OF_LINES, Runs

RUNS = 3
# How often the larger file may take the time of the smaller, or its instructions.
STEEPEST = 2.6
# How often runs that rise more are made again where instructions can't be counted.
MORE = 4


class Shape(NamedTuple):
    """A kind of file, and the peak that it may take.

    `make` gives the records of a size, and `script` what is played over them, or there is none where they are
    listed, with the options. Where `beside` makes other records, the peak is at most `times` that of theirs, and 1 MiB,
    and the time, or where this is more the instructions, at most `dearer` times theirs, if that is told.
    """
    name: str
    size: int
    make: Callable
    script: Callable | None = None
    most: int = PEAK_OF_LINES
    beside: Callable | None = None
    times: float = 1.3
    dearer: float | None = None
    options: tuple = ()


def all_steps(_):
    return 'next 4294967295\n'


def all_forgotten(_):
    return 'next 4294967295\nforget 0\n'


def all_steps_and_peers(size):
    """All steps, and then a question for a quarter as many times."""
    return all_steps(size) + 'peers\n' * (size // 4)


def back_and_forth(_):
    """All steps, back to the first, and all steps again."""
    return 'next 4294967295\ngoto 0\ngoto 4294967295\n'


def one_by_one(kept, steps, ahead=0):
    """Each of the steps behind the first ones, and how many are kept then."""
    return ('next %d\n' % ahead if ahead else '') + ('next 1\nforget %d\n' % kept) * steps


# Small routes that stay in garbage(), and the segments of a long one.
LIVE, SEGMENTS = 40_000, 1_000

SHAPES = (
    Shape('paths of 256 peers climb, 1,024 octets', 1, partial(shaped.climbing_old_table, peers=256, most=1024)),
    Shape('paths of 256 peers climb, 250 octets', 3, partial(shaped.climbing_old_table, peers=256, most=250)),
    Shape('paths of 1,024 peers climb, 1,024 octets', 1,
          partial(shaped.climbing_old_table, peers=1024, most=1024, steps=40)),
    Shape('paths of 1,024 peers climb, 250 octets', 1, partial(shaped.climbing_old_table, peers=1024, most=250)),
    # A record of so many paths takes 12 MiB alone, and 6.
    Shape('paths of a record climb, 1,024 octets', 1,
          partial(shaped.climbing_table, peers=1000, most=1024, steps=25), most=16 * MIB),
    Shape('paths of a record climb, 250 octets', 1, partial(shaped.climbing_table, peers=1000, most=250),
          most=8 * MIB),
    # A record of them takes 5 MiB; to keep that of the one before as well took 10.
    Shape('records of many segments', 8, partial(shaped.many_segments, peers=300), most=7 * MIB),
    Shape('long messages and entries by turns', 750, shaped.turns),
    Shape('records of one peer', 400, partial(shaped.one_peer_table, entries=1000)),
    Shape('records of many peers', 500, partial(shaped.many_peers_table, peers=1000)),
    # Lines of tables, of which those of each peer's last record are kept.
    Shape('records of 1,000 entries and of one by turns', 100, shaped.many_and_one),
    Shape('records of 1,000 peers, each with an index', 60, shaped.indexed_tables, beside=shaped.table_of_peers,
          dearer=2.0),
    Shape('peers in another order each record', 200, shaped.turned_entries, beside=shaped.entries_in_order, dearer=1.1),
    Shape('a peer twice in a record', 4_000, shaped.doubled_entries, beside=shaped.doubled_alike, dearer=3.2),
    Shape('entries that differ in the last community', 200, shaped.last_communities_differ,
          beside=shaped.first_numbers_differ, dearer=1.1),
    Shape('records of one route of many communities', 200, partial(shaped.entries_of, attributes=shaped.LONG_LINE)),
    Shape('records of paths of three segments', 400, partial(shaped.entries_of, attributes=shaped.THREE_SEGMENTS)),
    Shape('tables with other times', 200, shaped.entries_in_order, options=('-t', 'change')),
    Shape('tables of both families by turns', 100, shaped.both_families),
    Shape('old tables of 1,000 peers', 60, shaped.old_table_of_peers),
    Shape('records of one peer, played', 150, partial(shaped.one_peer_table, entries=1000), all_steps),
    Shape('records of many peers, played', 120, partial(shaped.many_peers_table, peers=1000), all_steps, 32 * MIB),
    Shape('short attributes behind long ones, played', 10_000, shaped.short_behind_long_attributes, all_forgotten,
          beside=shaped.short_attributes),
    Shape('garbage of known routes, played', 2_500, partial(shaped.garbage, live=LIVE, segments=SEGMENTS),
          partial(one_by_one, 0, ahead=LIVE), 40 * MIB),
    Shape('a session is lost, and comes again', 500, partial(shaped.flapping, each=100),
          lambda size: one_by_one(size, 2 * size + 1), 24 * MIB),
    Shape('messages are withdrawn', 200, partial(shaped.withdrawn, each=500), lambda size: one_by_one(1, 2 * size)),
    Shape('prefixes of 80 bits share 48', 10_000, shaped.alike, lambda size: one_by_one(size, 2 * size), 9 * MIB),
    Shape('prefixes of 80 bits share 48, back and forth', 10_000, shaped.alike, back_and_forth, 12 * MIB),
    Shape('hosts below keys of each length, played', 2, partial(shaped.hosts_below_keys, keys=113), all_steps,
          beside=partial(shaped.hosts_below_keys, keys=0), dearer=5.4),
    Shape('hosts below keys of each length, back and forth', 2, partial(shaped.hosts_below_keys, keys=113),
          back_and_forth, beside=partial(shaped.hosts_below_keys, keys=0), dearer=6.0),
    Shape('prefixes come and go', 100, partial(shaped.coming_and_going, prefixes=500),
          lambda size: one_by_one(size, 2 * size), 6 * MIB),
    Shape('peers of an address each, played', 50_000, shaped.many_peers, all_forgotten, 40 * MIB),
    Shape('peers go, and addresses of one come', 50_000, lambda size: shaped.many_peers_gone(size, size),
          lambda size: 'next %d\nforget 0\nnext 4294967295\n' % (2 * size), 48 * MIB),
    Shape('prefixes of all lengths, played', 2_000, partial(shaped.all_lengths, times=160), all_steps),
    Shape('paths of many segments', 10, partial(shaped.records_of_paths, peers=200, segments=shaped.MANY_SEGMENTS),
          beside=partial(shaped.records_of_paths, peers=200, segments=shaped.ONE_SEGMENT), times=2.0, dearer=3.0),
    # The attributes and routes of a record take 10 MiB; its lines took as much again.
    Shape('lines of 210,000 octets', 1, partial(shaped.long_lines, entries=64), most=12 * MIB),
    Shape('routes of one hash, played', 500, partial(shaped.turning_routes, peers=32, count=64, alike=True), all_steps,
          beside=partial(shaped.turning_routes, peers=32, count=64, alike=False)),
    Shape('long routes that are equal, played', 500, partial(shaped.equal_long_routes, peers=4, count=1_023), all_steps,
          most=5 * MIB),
    Shape('short routes behind room, played', 10_000, shaped.short_behind_room, all_steps,
          beside=shaped.short_routes),
    # What a record of these takes.
    Shape('garbage of long records, played', 2, partial(shaped.short_among_garbage, entries=20_000), all_steps,
          most=70 * MIB),
    # A claim beyond the key in each family takes some 140 octets a peer, and nine in each some 1,000.
    Shape('peers announce again, played', 10_000, partial(shaped.claimed_twice, count=1), all_steps,
          beside=partial(shaped.announced_thrice, count=1), times=1.3),
    Shape('peers announce nine prefixes again, played', 2_000, partial(shaped.claimed_twice, count=9), all_steps,
          beside=partial(shaped.announced_thrice, count=9), times=1.5),
    Shape('peers without routes, asked for', 8_000, shaped.emptied_peers, all_steps_and_peers, 16 * MIB),
)

def used_by(runs, shape, make, size, times=1):
    """What the records of this size use, played or listed as the shape is."""
    return runs.over(make(size), shape.script and shape.script(size), times, shape.options)


def used_by_both(runs, shape):
    """What a size and its double use, each in the least of three runs."""
    return [used_by(runs, shape, shape.make, size, RUNS) for size in (shape.size, 2 * shape.size)]


def instructions_of(runs, shape, make, size):
    """How many instructions the records of this size take; None where they can't be counted."""
    return runs.instructions_over(make(size), shape.script and shape.script(size), shape.options)


def instructions_of_both(runs, shape):
    return [instructions_of(runs, shape, shape.make, size) for size in (shape.size, 2 * shape.size)]


def faults_of_rise(runs, shape, small, large):
    """Whether the double takes too much more than the size, by times, and where these say so by instructions."""
    if large.time <= STEEPEST * small.time:
        return
    fewer, more = instructions_of_both(runs, shape)
    if fewer is not None:
        print('%48.2f   by instructions' % (more / fewer))
        if more > STEEPEST * fewer:
            yield '%s: %d instructions, and %d at half the size' % (shape.name, more, fewer)
        return
    for _ in range(MORE):
        again = used_by_both(runs, shape)
        small, large = (one.joined(other) for one, other in zip((small, large), again))
        if large.time <= STEEPEST * small.time:
            return
    yield '%s: %.1f ms, and %.1f at half the size' % (shape.name, large.time, small.time)


def most_of(runs, shape, size):
    """The peak that the shape may take at this size."""
    if shape.beside is None:
        return shape.most
    return int(shape.times * used_by(runs, shape, shape.beside, size).peak) + MIB


def faults_of_cost(runs, shape, size, used):
    """Whether it takes too much more time than the records beside it, and where it does, instructions."""
    if shape.dearer is None:
        return
    beside = used_by(runs, shape, shape.beside, size, RUNS)
    if used.time <= shape.dearer * beside.time:
        return
    more, fewer = [instructions_of(runs, shape, make, size) for make in (shape.make, shape.beside)]
    if fewer is None:
        yield '%s: %.1f ms, and %.1f beside it' % (shape.name, used.time, beside.time)
    elif more > shape.dearer * fewer:
        yield '%s: %d instructions, and %d beside it' % (shape.name, more, fewer)


def faults_of_peak(runs, shape, size, used):
    most = most_of(runs, shape, size)
    if used.status != 0:
        yield '%s: status %d at size %d' % (shape.name, used.status, size)
    elif used.peak > most:
        yield '%s: %d KiB at size %d, of which %d is the most' % (shape.name, used.peak, size, most)


def faults_of_shape(runs, shape):
    """Runs the program over both sizes, prints what it used, and gives what is wrong."""
    small, large = used_by_both(runs, shape)
    print('%7d %7d   %7.1f %7.1f %5.2f   %s' % (
        small.peak, large.peak, small.time, large.time, large.time / small.time, shape.name), flush=True)
    yield from faults_of_peak(runs, shape, shape.size, small)
    yield from faults_of_peak(runs, shape, 2 * shape.size, large)
    yield from faults_of_cost(runs, shape, 2 * shape.size, large)
    yield from faults_of_rise(runs, shape, small, large)


def faults_of_shapes(runs):
    print('  peaks in KiB    times in ms and ratio')
    for shape in SHAPES:
        yield from faults_of_shape(runs, shape)


def main():
    if len(sys.argv) != 2:
        sys.exit(__doc__)
    program = Path(sys.argv[1]).resolve()
    with tempfile.TemporaryDirectory() as folder:
        faults = list(faults_of_held(Calls(program, Path(folder))))
        faults += faults_of_shapes(Runs(program, Path(folder)))
    for what in faults:
        print(what)
    print('shapes: %s' % ('no faults' if not faults else '%d faults' % len(faults)))
    sys.exit(1 if faults else 0)


if __name__ == '__main__':
    main()
