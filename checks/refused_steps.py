"""Rows of players that are refused memory, or that do without any: see refused_calls.py.

Of each, what is seen before the marked event, of it where the event is refused and where it is played, one step
back, here again and one step forth. Behind the event each request for memory is refused.
"""
from dataclasses import dataclass, replace

KNOWN, NEW, OTHER_NEW = (f'192.0.2.{last} 64500' for last in (1, 2, 3))

WIDE, NARROW, WIDE_IPV6, NARROW_IPV6 = '10.0.0.0/8', '10.1.0.0/16', '2001:db8::/32', '2001:db8:1::/48'


@dataclass(frozen=True)
class Peer:
    """What is seen of a peer: how many keys its store has, where there is one, how many routes, and of some the time."""
    keys: int | None = None
    routes: int = 0
    wide: int | None = None
    narrow: int | None = None
    wide_ipv6: int | None = None
    narrow_ipv6: int | None = None


NOTHING = Peer()


@dataclass(frozen=True)
class Seen:
    """What is seen of a player: where it stands, how many pairs its steps name, and its peers."""
    at: int
    ahead: int
    named: int
    known: Peer
    new: Peer = NOTHING
    other_new: Peer = NOTHING
    floor: int = 0

    def lines(self):
        """What is asked, and what is answered."""
        peers = (KNOWN, self.known), (NEW, self.new), (OTHER_NEW, self.other_new)
        yield 'steps', f'at {self.at} ahead {self.ahead} named {self.named}'
        yield 'floor', f'floor {self.floor}'
        yield 'peers', 'peers' + ''.join(f', {peer.routes} of {name}' for name, peer in peers if peer.routes)
        for name, peer in peers:
            yield f'keys {name}', 'no store' if peer.keys is None else f'keys {peer.keys}'
            for prefix, time in ((WIDE, peer.wide), (NARROW, peer.narrow), (WIDE_IPV6, peer.wide_ipv6),
                                 (NARROW_IPV6, peer.narrow_ipv6)):
                yield f'route {name} {prefix}', 'none' if time is None else f'at {time}'


@dataclass(frozen=True)
class Walk:
    """What is seen at a place, one step back, and one forth where a step is ahead."""
    here: Seen
    back: Seen
    forth: Seen | None = None

    def lines(self):
        yield from self.here.lines()
        yield 'undo', 'done'
        yield from self.back.lines()
        yield 'redo', 'done'
        yield from self.here.lines()
        yield 'redo', 'done' if self.forth else 'no step'
        yield from (self.forth or self.here).lines()


@dataclass(frozen=True)
class Course:
    """Lines before with their answers, the event that is marked, and what is seen behind it."""
    title: str
    before: list
    event: str
    refused: Walk
    dropped: int
    played: Walk
    kind: str = 'player'

    def row(self):
        before = [*self.before, *self.refused.here.lines(), ('mark', 'marked')]
        behind = [('alone', 'alone'), *self.played.lines()]
        refused = [('alone', 'alone'), *self.refused.lines()]
        event = f'play {self.event}'
        return row(self.kind, self.title, [*before, (event, f'dropped {self.dropped}'), *behind],
                   [*before, (event, 'refused'), *refused])


def row(kind, title, lines, refused=()):
    """A row of these lines with their answers, and of other answers where memory is refused."""
    return '\n'.join([f'{kind}: {title}', *(f': {line}' for line, _ in lines), *(f'> {answer}' for _, answer in lines),
                      *(f'? {answer}' for _, answer in refused), ''])


# Events.

def numbered(number):
    """The prefix of a number, from 11.0.0.0/24 on."""
    return f'11.{number >> 8}.{number & 255}.0/24'


def announced(time, prefix=WIDE, peer=KNOWN):
    return f'+{peer} {prefix} {time}'


def withdrawn(prefix=WIDE):
    return f'-{KNOWN} {prefix}'


def replaced(time):
    return f'{withdrawn()}, {announced(time)}'


def sharing(time, pairs):
    """The announcement of these peers and prefixes with one route."""
    (peer, prefix), *others = pairs
    return ', '.join([announced(time, prefix, peer), *(f'*{peer} {prefix}' for peer, prefix in others)])


def different(count, first):
    """The announcement of so many prefixes, each with a route of its own time."""
    prefixes = [WIDE, NARROW, *map(numbered, range(2, count))]
    return ', '.join(announced(first + number, prefix) for number, prefix in enumerate(prefixes))


def out_of_order(count, first):
    """The announcement of the same prefixes out of order, each with a route of its own time, and of the first again."""
    items = different(count, first).split(', ')
    return ', '.join([*(items[7 * number % count] for number in range(count)), announced(9_000)])


LOSS = f'={KNOWN} 6 1'


def played(events, dropped='dropped 0'):
    return [(f'play {event}', dropped) for event in events]


# What stands before.

UNDONE = ('undo', 'done')

STEP_AHEAD = [*played([announced(100), replaced(101)]), UNDONE]

BEHIND_FLOOR = [*played(map(replaced, (100, 101, 102))), ('forget 2', 'forgot 1'), UNDONE]


def each_announced(steps):
    return played(announced(103, numbered(number)) for number in range(steps))


def thousand(peer):
    return sharing(103, [(peer, numbered(number)) for number in range(1_000)])


def one_peer(at, ahead, named, keys, routes, wide=None, floor=0):
    return Seen(at, ahead, named, Peer(keys, routes, wide), floor=floor)


# One step before the cursor, and one ahead that replaces its route.
WITH_STEP_AHEAD = Walk(one_peer(1, 1, 2, 1, 1, 100), one_peer(0, 2, 2, 1, 0), one_peer(2, 0, 2, 1, 1, 101))


def in_place_of_a_step(title, event, new, other_new, named, kind='player'):
    """An event of new peers, in place of a step ahead."""
    emptied = [replace(NOTHING, keys=peer.keys) for peer in (new, other_new)]
    here = replace(one_peer(2, 0, named, 1, 1, 100), new=new, other_new=other_new)
    back = replace(one_peer(1, 1, named, 1, 1, 100), new=emptied[0], other_new=emptied[1])
    return Course(title, STEP_AHEAD, event, WITH_STEP_AHEAD, 1, Walk(here, back), kind)


def behind_steps(title, steps, floor=0):
    """One step more behind so many of a route each, of which those up to a floor are forgotten."""
    before = each_announced(steps) + ([(f'forget {steps - floor}', f'forgot {floor}')] if floor else [])
    kept = steps - floor

    def seen(at, ahead, named, keys, wide=None):
        return one_peer(at, ahead, named, keys, at, wide, floor)
    refused = Walk(seen(steps, 0, kept, steps), seen(steps - 1, 1, kept, steps))
    both = Walk(seen(steps + 1, 0, kept + 1, steps + 1, 102), seen(steps, 1, kept + 1, steps + 1))
    return Course(title, before, announced(102), refused, 0, both, 'player tree')


def behind_floor():
    def seen(at, ahead, time):
        return one_peer(at, ahead, 2, 1, 1, time, 1)
    refused = Walk(seen(2, 1, 101), seen(1, 2, 100), seen(3, 0, 102))
    return Course('a route in place of another behind a floor', BEHIND_FLOOR, replaced(103), refused, 1,
                  Walk(seen(3, 0, 103), seen(2, 1, 101)))


def over_many():
    def many(first):
        return Peer(800, 800, first, first + 1)
    before = Walk(Seen(1, 0, 800, many(1_000)), one_peer(0, 1, 800, 800, 0))
    behind = Walk(Seen(2, 0, 1_600, many(5_000)), Seen(1, 1, 1_600, many(1_000)))
    return Course('800 routes over 800 that differ', played([different(800, 1_000)]),
                  different(800, 5_000), before, 0, behind, 'player tree')


def sorted_event(count):
    """An event of so many prefixes out of order."""
    before = Walk(Seen(1, 0, count, Peer(count, count, 100, 101)), one_peer(0, 1, count, count, 0))
    behind = Walk(Seen(2, 0, 2 * count, Peer(count, count, 9_000, 5_001)),
                  Seen(1, 1, 2 * count, Peer(count, count, 100, 101)))
    return Course(f'{count} prefixes of a message out of order', played([different(count, 100)]),
                  out_of_order(count, 5_000), before, 0, behind, 'player tree')


def loss_among_others():
    """The loss of a session, with items of its peer and of another one before and behind it."""
    before = ', '.join([announced(100), announced(101, NARROW), announced(102, WIDE_IPV6), announced(103, WIDE, NEW)])
    event = ', '.join([announced(104, NARROW, NEW), withdrawn(NARROW), announced(105, NARROW_IPV6), LOSS,
                       announced(106), f'-{NEW} {WIDE}'])
    known, new = Peer(3, 3, 100, 101, 102), Peer(1, 1, 103)
    return Course('a loss among other items', played([before]), event,
                  Walk(Seen(1, 0, 4, known, new), Seen(0, 1, 4, Peer(3), Peer(1))), 0,
                  Walk(Seen(2, 0, 9, Peer(3, 1, 106), Peer(2, 1, None, 104)),
                       Seen(1, 1, 9, known, replace(new, keys=2))))


def courses():
    """Events that are refused, or played."""
    both = [(peer, prefix) for peer in (NEW, OTHER_NEW) for prefix in (WIDE, NARROW)]
    wide = ', '.join(announced(102 + number, prefix, peer) for number, (peer, prefix) in enumerate(
        (peer, prefix) for peer in (NEW, OTHER_NEW) for prefix in (WIDE_IPV6, NARROW_IPV6)))
    full = Peer(2, 2, 102, 102)
    yield in_place_of_a_step('two prefixes of two new peers', sharing(102, both), full, full, 5)
    yield in_place_of_a_step('two prefixes of IPv6 of two new peers', wide, Peer(2, 2, None, None, 102, 103),
                             Peer(2, 2, None, None, 104, 105), 5)
    yield Course('a route in place of another', played([announced(100)]), replaced(101),
                 Walk(one_peer(1, 0, 1, 1, 1, 100), one_peer(0, 1, 1, 1, 0)), 0,
                 Walk(one_peer(2, 0, 2, 1, 1, 101), one_peer(1, 1, 2, 1, 1, 100)))
    yield behind_floor()
    yield Course('a route that comes again, and one more', played([announced(100), LOSS]), different(2, 102),
                 Walk(one_peer(2, 0, 2, 1, 0), one_peer(1, 1, 2, 1, 1, 100)), 0,
                 Walk(Seen(3, 0, 4, Peer(2, 2, 102, 103)), one_peer(2, 1, 4, 2, 0)))
    ipv6 = ', '.join([announced(102, WIDE_IPV6), announced(103, NARROW_IPV6)])
    yield Course('an IPv6 route that comes again, and one more', played([announced(100, WIDE_IPV6), LOSS]), ipv6,
                 Walk(one_peer(2, 0, 2, 1, 0), Seen(1, 1, 2, Peer(1, 1, wide_ipv6=100))), 0,
                 Walk(Seen(3, 0, 4, Peer(2, 2, wide_ipv6=102, narrow_ipv6=103)), one_peer(2, 1, 4, 2, 0)))
    yield loss_among_others()
    for count in 25, 101:
        yield sorted_event(count)
    for steps in 1_024, 1_100:
        yield behind_steps(f'a route behind {steps:,} steps', steps)
    yield behind_steps('a route behind 5,000 steps, of which one is kept', 5_000, 4_999)
    yield over_many()
    yield Course('a loss in place of two steps', [*played([LOSS] * 3), UNDONE, UNDONE], LOSS,
                 Walk(Seen(1, 2, 0, NOTHING), Seen(0, 3, 0, NOTHING), Seen(2, 1, 0, NOTHING)), 2,
                 Walk(Seen(2, 0, 0, NOTHING), Seen(1, 1, 0, NOTHING)))
    thousand_before = Walk(one_peer(1, 0, 1_000, 1_000, 1_000), one_peer(0, 1, 1_000, 1_000, 0))
    yield Course('one route more than a thousand', played([thousand(KNOWN)]), announced(102), thousand_before, 0,
                 Walk(one_peer(2, 0, 1_001, 1_001, 1_001, 102), one_peer(1, 1, 1_001, 1_001, 1_000)), 'player tree')
    yield Course('the loss of a thousand routes', played([thousand(KNOWN)]), LOSS, thousand_before, 0,
                 Walk(one_peer(2, 0, 2_000, 1_000, 0), one_peer(1, 1, 2_000, 1_000, 1_000)), 'player tree')
    yield in_place_of_a_step('a thousand routes of a new peer', thousand(NEW), Peer(1_000, 1_000), NOTHING, 1_001,
                             'player tree')


# Two plays, of which one is refused.

def where_places_become_fewer(marked):
    """Of 1,100 routes a hundred stay, so that there are too many places for them when the next event is played. It is
    marked, or the one behind it."""
    gone = ', '.join(withdrawn(numbered(number)) for number in range(100, 1_100))
    before = [*played([different(1_100, 1_000), gone]), ('forget 0', 'forgot 2')]
    events = [f'play {announced(1_000, WIDE, NEW)}', f'play {announced(2_000, NARROW, NEW)}']
    known = Peer(100, 100, 1_000, 1_001)

    def seen(at, ahead, named, new):
        return Seen(at, ahead, named, known, new, floor=2)

    def lines(answers, walk):
        played_events = list(zip(events, answers))
        played_events.insert(marked, ('mark', 'marked'))
        return [*before, *seen(2, 0, 0, NOTHING).lines(), *played_events, ('alone', 'alone'), *walk.lines()]

    first, second = Peer(1, 1, 1_000), Peer(1, 1, None, 2_000)
    both = Walk(seen(4, 0, 2, Peer(2, 2, 1_000, 2_000)), seen(3, 1, 2, replace(first, keys=2)))
    other = Walk(seen(3, 0, 1, first if marked else second), seen(2, 1, 1, Peer(1)))
    answers = ['dropped 0', 'dropped 0']
    refused = [*answers[:marked], 'refused', *answers[marked + 1:]]
    title = 'a play behind places that became fewer' if marked else 'places of known routes that become fewer'
    return row('player tree', title, lines(answers, both), lines(refused, other))


# What is forgotten without memory.

@dataclass(frozen=True)
class Forgetting:
    """Steps, how many are kept before and undone, how many the call keeps and forgets, and what is seen then, at
    the floor, and at the end."""
    title: str
    steps: list
    kept_before: int
    undone: int
    kept: int
    count: int
    here: Seen
    start: Seen
    end: Seen

    def row(self):
        before = played(self.steps)
        if self.kept_before < len(self.steps):
            before.append((f'forget {self.kept_before}', f'forgot {len(self.steps) - self.kept_before}'))
        back, forth = self.here.at - self.start.at, self.end.at - self.start.at
        return row('player tree', self.title, [
            *before, *[UNDONE] * self.undone, ('alone', 'alone'), (f'forget {self.kept}', f'forgot {self.count}'),
            *self.here.lines(), *[UNDONE] * back, ('undo', 'no step'), *self.start.lines(),
            *[('redo', 'done')] * forth, ('redo', 'no step'), *self.end.lines()])


def halves(prefixes):
    """Each prefix is announced, with a route of its own, and then each withdrawn."""
    return [announced(1_000 + number, numbered(number)) for number in range(prefixes)] + \
        [withdrawn(numbered(number)) for number in range(prefixes)]


def turns(prefixes):
    """Each prefix is announced, with a route of its own, and withdrawn right behind."""
    return [event for number in range(prefixes)
            for event in (announced(1_000 + number, numbered(number)), withdrawn(numbered(number)))]


def forgettings():
    """Steps that are forgotten."""
    def at(place, floor, keys, routes, steps=3_000):
        return one_peer(place, steps - place, steps - floor, keys, routes, None, floor)
    nothing = at(3_000, 3_000, None, 0)
    steps, all_steps = halves(1_500), 1 << 32
    yield Forgetting('all steps', steps, all_steps, 0, 0, 3_000, nothing, nothing, nothing)
    yield Forgetting('all steps before others', steps, all_steps, 500, 0, 2_500, at(2_500, 2_500, 500, 500),
                     at(2_500, 2_500, 500, 500), at(3_000, 2_500, 500, 0))
    yield Forgetting('most steps before others', steps, all_steps, 500, 100, 2_400, at(2_500, 2_400, 600, 500),
                     at(2_400, 2_400, 600, 600), at(3_000, 2_400, 600, 0))
    yield Forgetting('steps behind a floor', steps, 2_000, 0, 1_000, 1_000, at(3_000, 2_000, 1_000, 0),
                     at(2_000, 2_000, 1_000, 1_000), at(3_000, 2_000, 1_000, 0))
    # Behind so many the table of known routes was widened, and has too many places once half of them are let go.
    here = at(2_899, 2_899, 251, 1, 3_400)
    yield Forgetting('steps of announcements and withdrawals by turns', turns(1_700), all_steps, 501, 0, 2_899, here,
                     here, at(3_400, 2_899, 251, 0, 3_400))
    yield Forgetting('steps of routes that come again', turns(500) * 3, 2_800, 501, 100, 2_199,
                     at(2_499, 2_399, 301, 1), at(2_399, 2_399, 301, 1), at(3_000, 2_399, 301, 0))


# Two new peers of which one goes.

def going(peer, stays, title):
    """The first two peers of a player: one loses its session, and its steps are forgotten without memory, also where
    a request of the first event was done without."""
    event = f'play {announced(102, WIDE, NEW)}, {announced(103, WIDE, OTHER_NEW)}'
    loss = f'play ={peer} 6 1', 'dropped 0'
    forgotten = ('alone', 'alone'), ('forget 0', 'forgot 2'), *Seen(2, 0, 0, NOTHING, *stays, floor=2).lines()
    refused = ('alone', 'alone'), ('forget 0', 'forgot 1'), *Seen(1, 0, 0, NOTHING, floor=1).lines()
    return row('player', title, [('mark', 'marked'), (event, 'dropped 0'), loss, *forgotten],
               [('mark', 'marked'), (event, 'refused'), loss, *refused])


def goings():
    """Each of both goes."""
    yield going(NEW, (NOTHING, Peer(1, 1, 103)), 'the first of two peers goes')
    yield going(OTHER_NEW, (Peer(1, 1, 102), NOTHING), 'the second of two peers goes')


def large_table():
    """A script that prints a table of more than a hundred routes."""
    prefixes = range(1, 102)
    octets = ' '.join('08%02X' % number for number in prefixes)
    line = 'RIB|100|B|192.0.2.1|64500|%d.0.0.0/8|64500|IGP|192.0.2.9|0|0||NAG||'
    return '\n'.join([
        'play: a script that prints a large table',
        '< 00000064 0010 0001 4{ FBF4 FBF5 0000 0001 C0000201 C0000202 bgp{ 02 0000',
        '< 2{ 40010100 400204 0201 FBF4 400304 C0000209 } ' + octets + ' } }', ': next', ': table 192.0.2.1 64500',
        '> at 1', *('> ' + line % number for number in prefixes), '> routes 101', ''])


def large_events():
    """The lines of an event of 80 items, by a run and by a call."""
    numbers = range(1, 41)
    octets = ' '.join('08%02X' % number for number in numbers)
    withdrawn_line = 'BGP4MP|100|W|192.0.2.1|64500|%d.0.0.0/8'
    announced_line = 'BGP4MP|100|A|192.0.2.1|64500|%d.0.0.0/8|64500|IGP|192.0.2.9|0|0||NAG||'
    for call, title in (('dump', 'an event of more than 64 items'), ('printed', 'lines of more than 64 items')):
        yield '\n'.join([
            f'{call}: {title}', '< 00000064 0010 0001 4{ FBF4 FBF5 0000 0001 C0000201 C0000202 bgp{ 02',
            f'< 2{{ {octets} }} 2{{ 40010100 400204 0201 FBF4 400304 C0000209 }} {octets} }} }}',
            *('> ' + line % number for line in (withdrawn_line, announced_line) for number in numbers), ''])


def rows_of_steps():
    """All these rows."""
    return [*(course.row() for course in courses()), *(where_places_become_fewer(marked) for marked in (0, 1)),
            *(forgetting.row() for forgetting in forgettings()), *goings(), large_table(), *large_events()]
