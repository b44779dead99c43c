"""What the program holds behind a large thing, once small ones have followed it up to the end of the input.

Each case makes records with something large in them, and the same without it. As the program finds the end of its
input, refusing.c tells how many octets of memory it holds: beside a large thing at most so many more as the constant
allows that stands above the case. Where that is made four times as large, more is held. The room of a body, of a line
and of an index counts as well, so most cases let go of it behind the large thing.
"""
import struct
from dataclasses import dataclass
from functools import partial
from typing import Callable

from records import communities, entry, host, index, loss, message, net, record, route, segment, session, table

KIB = 1 << 10


@dataclass(frozen=True)
class Case:
    """The records of a case with something large and without it, what is played over both, if they are, and how many
    octets more are held at most by what it is that is large."""
    name: str
    make: Callable
    without: Callable
    most: int
    script: str | None = None


# Records that are small, or let go of what stands before them.

def change(ignored=0):
    """A change of states, with so many octets behind it that are ignored (RFC 6396, section 4.4)."""
    return record(16, 5, session(4) + struct.pack('>HH', 5, 6) + bytes(ignored))


def small_messages(count=4):
    for number in range(count):
        yield message(b'', route(segment(4, 64496)), host(number))


def emptied(records):
    """The records, one that takes the place of their index, one whose line has a text that is let go, ones with bodies
    that are, of so many octets that no routes of a table stay because the records needed them, and small ones."""
    yield from records
    yield index(1)
    yield table(0, net(0), [entry(0, communities(*range(11_000)))])
    yield from [change(300_000)] * 8
    yield from [change()] * 4


# What records are read into.

def long_body(ignored):
    """A record of so many octets that are ignored, and small ones."""
    yield change(ignored)
    yield from [change()] * 4


def long_line(count):
    """A line of so many communities, and small ones."""
    yield message(b'', route(segment(4, 64496), communities(*range(count))), host(0))
    yield from small_messages()


def long_message(prefixes):
    """An UPDATE of so many prefixes of eight bits, and small ones."""
    yield message(b'', route(segment(4, 64496)), bytes([8, 10]) * prefixes)
    yield from small_messages()


def many_entries(count, attributes):
    """A record of a table with so many entries of the only peer."""
    yield index(1)
    yield table(0, net(0), [entry(0, attributes)] * count)


def entries_of_peers(peers, make):
    """A record of a table with an entry of each peer, whose attributes are made by its number."""
    yield index(peers)
    yield table(0, net(0), [entry(peer, make(peer)) for peer in range(peers)])


def segments_of(count):
    """Attributes whose path has so many segments of one number."""
    return route(segment(4, 64496) * count)


def long_at_first(number):
    """Attributes of 650 segments for the first four numbers, and of 3 and 230 communities for others."""
    return segments_of(650) if number < 4 else segments_of(3) + communities(*range(number, number + 230))


def plain_of(numbers, number):
    """Attributes with a path of one segment of so many numbers."""
    return route(segment(4, number + 1, *range(1, numbers)))


# What is played and kept.

def announced_behind(count, long):
    """So many announcements of three numbers, each behind an UPDATE with long attributes that announces nothing, where
    there are some."""
    for number in range(count):
        if long:
            yield message(b'', long, b'')
        yield message(b'', route(segment(4, 64496, number >> 16, number & 0xFFFF), communities(number & 0xFFFF)),
                      host(number))


def steps_of(count):
    """So many steps that announce a prefix by turns, and a few more."""
    for number in range(count + 4):
        yield message(b'', route(segment(4, 64496 + number % 2)), host(0))


def peers_of(count):
    """So many peers that announce a prefix and withdraw it, and then a few."""
    for peer in range(count):
        yield message(b'', route(segment(4, 64496)), host(0), peer=peer)
        yield message(host(0), b'', b'', peer=peer)
    for peer in range(4):
        yield message(b'', route(segment(4, 64496)), host(0), peer=peer)


def marked_peers_of(count):
    """A record of a table with so many of 10,000 peers, who lose their sessions, and records with few."""
    yield index(10_000)
    yield table(0, net(0), [entry(peer, b'') for peer in range(count)])
    yield from map(loss, range(10_000))
    yield from emptied(table(number, net(number), [entry(0, b''), entry(1, b'')]) for number in range(4))


def routes_of(count, left):
    """So many routes that differ, of which all but so many are withdrawn."""
    for number in range(count):
        yield message(b'', route(segment(4, 64496, number)), host(number))
    for number in range(left, count):
        yield message(host(number), b'', b'')
    for number in range(left, left + 4):
        yield message(host(number), b'', b'')


def garbage_of(count):
    """So many routes of 255 numbers that no step keeps, since another of the same pair stands behind each."""
    yield index(1)
    for number in range(count):
        yield table(number, net(0), [entry(0, plain_of(255, number)), entry(0, segments_of(1))])


def forgotten_at(steps):
    """All steps are forgotten behind so many, and then the others are played."""
    return 'next %d\nforget 0\nnext 4294967295\n' % steps


ALL_STEPS = 'next 4294967295\n'


EACH = 2_000

CASES = (
    # MOST_KEPT of mrt_frames/src/frames.rt: 2^18 octets.
    Case('the body of a record', lambda: long_body(1_000_000), lambda: long_body(0), 256 * KIB),
    # MOST_KEPT of octet_text/src/buffer.rt: 2^18 octets, beside a body of 2^16.
    Case('the text of a line', lambda: long_line(16_000), lambda: long_line(1), (256 + 64) * KIB),
    # LONGEST_KEPT of mrt_wire/src/session.rt: 4,096 octets of a message, of 2,048 prefixes.
    Case('the parts of an UPDATE', lambda: emptied(long_message(5_900)), lambda: emptied(long_message(1)), 48 * KIB),
    # MOST_ITEMS of mrt_wire/src/pool.rt: 4,096.
    Case('items', lambda: emptied(many_entries(10_000, b'')), lambda: emptied(many_entries(4_000, b'')), 64 * KIB),
    # MOST_ROOM of mrt_wire/src/route_pool.rt: 560 KiB. Of LONGEST_FIRST there: 1,024 octets, so those of the first
    # peers are among them.
    Case('routes of a table', lambda: emptied(entries_of_peers(1_024, long_at_first)),
         lambda: emptied(entries_of_peers(1_024, lambda _: b'')), 560 * KIB),
    # PEER_SLOTS of mrt_wire/src/peers.rt: 256 places of 1,344 octets.
    Case('places for peers', lambda: emptied(entries_of_peers(1_024, partial(plain_of, 1))),
         lambda: emptied(entries_of_peers(1_024, lambda _: b'')), 256 * 1_344),
    # LONGEST_CACHED of mrt_wire/src/route_cache.rt: 192 octets.
    Case('attributes of places', lambda: emptied(entries_of_peers(256, lambda number: plain_of(40, number) +
                                                                  communities(*range(80)))),
         lambda: emptied(entries_of_peers(256, lambda _: b'')), 256 * KIB),
    # MOST_SPARE of bgp_paths/src/segments.rt: 4 segments of 40 octets. So many grow to room for 16.
    Case('spare segments', lambda: announced_behind(EACH, segments_of(14)), lambda: announced_behind(EACH, b''),
         EACH * 5 * 40, ALL_STEPS),
    # MOST_SPARE of bgp_paths/src/as_numbers.rt: 8 numbers.
    Case('spare numbers', lambda: announced_behind(EACH, plain_of(35, 1)), lambda: announced_behind(EACH, b''),
         EACH * 48, ALL_STEPS),
    # MOST_SPARE of bgp_wire/src/attrs.rt: 32 communities.
    Case('spare communities', lambda: announced_behind(EACH, communities(*range(129))),
         lambda: announced_behind(EACH, b''), EACH * 144, ALL_STEPS),
    # MOST_TIMES and LEAST_ROOM of rib_player/src/spare_capacity.rt: room for 4 times 1,024 steps, and as many peers and marks.
    Case('room for steps', lambda: steps_of(10_000), lambda: steps_of(0), 4 * 1_024 * 32, forgotten_at(10_000)),
    Case('room for peers', lambda: peers_of(10_000), lambda: peers_of(0), 4 * 1_024 * 128, forgotten_at(20_000)),
    Case('marks of peers', lambda: marked_peers_of(10_000), lambda: marked_peers_of(5_000), 4 * 1_024 * 8,
         forgotten_at(10_002)),
    # MIN_SLOTS and LASTS of known_routes, and PLACES of rib_player/src/stores.rt.
    Case('places at first', lambda: steps_of(0), lambda: [change()] * 4, 64 * KIB, ALL_STEPS),
    # MOST_TIMES of known_routes/src/slots.rt: 3 places of 17 octets for each of the routes, and 1,024 more.
    Case('places of known routes', lambda: routes_of(10_000, 2_000), lambda: routes_of(2_000, 2_000),
         (3 * 2_000 + 1_024 - 3_136) * 17, forgotten_at(18_000)),
    # RELEASED_ROOM and RELEASED_SHARE of known_routes/src/routes.rt: a MiB besides a quarter.
    Case('routes that nobody else holds', lambda: garbage_of(2_500), lambda: garbage_of(4), 1_280 * KIB,
         forgotten_at(2_500)),
)


def held_over(calls, records, script):
    """How many octets the program holds when the input of these records ends, and its status."""
    file, words = calls.folder / 'held.mrt', ['-m']
    with file.open('wb') as out:
        out.writelines(records)
    if script:
        (calls.folder / 'held-script').write_text(script)
        words = ['--play', str(calls.folder / 'held-script')]
    ended = calls.run([*words, str(file)])
    return ended.held, ended.status


def faults_of_held(calls):
    """Runs the program over each case, prints what it holds, and gives what is wrong."""
    print('   without    beside   at most   octets held')
    for case in CASES:
        (without, first), (beside, second) = (
            held_over(calls, make(), case.script) for make in (case.without, case.make))
        print('%10d %9d %9d   %s' % (without, beside - without, case.most, case.name), flush=True)
        if first or second:
            yield '%s: status %d and %d' % (case.name, first, second)
        elif beside - without > case.most:
            yield '%s: %d octets are held beside %d, of which %d are the most' % (
                case.name, beside - without, without, case.most)
