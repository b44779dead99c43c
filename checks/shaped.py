"""Files whose shape another party chooses, so that they cost memory or time where something is kept or searched.

Each maker gives the octets of one record after another. shapes.py says what they may cost.
"""
import struct
from functools import cache

from reading import COMMUNITIES
from records import SECONDS, attribute, communities, entry, host, index, loss, message, net, old_entry, prefix, reach
from records import route, segment, table, table_hop, unreach, wide_table

# The octets of what an entry has beside the segments of its path.
BESIDE = len(route(bytes(256))) - 256


# Climbing paths: of a peer's entries each has a segment of one number more than the one before, and then one of
# many numbers, so that each segment in turn is the long one.

def climb(width, most, steps=100):
    """The attributes of a climb of so many steps, or as many as there is room for in so many octets each."""
    short = 2 + width
    for step in range(min(steps, (most - BESIDE - 2) // short)):
        longest = min(255, (most - BESIDE - step * short - 2) // width)
        yield route(b''.join(segment(width, 64500 + number) for number in range(step)) +
                    segment(width, *range(1, longest + 1)))


def climbing_old_table(climbs, peers, most, steps=100):
    """So many climbs of each of these peers, which take turns."""
    for number, attributes in enumerate(list(climb(2, most, steps)) * climbs):
        for peer in range(peers):
            yield old_entry(number, peer, attributes)


def climbing_table(climbs, peers, most, steps=100):
    """The same in records of an entry of each peer."""
    yield index(peers)
    for number, attributes in enumerate(list(climb(4, most, steps)) * climbs):
        yield table(number, net(number), [entry(peer, attributes) for peer in range(peers)])


def many_segments(records, peers):
    """Records of an entry of each peer by turns, with as many segments as routes that are kept may have, and more."""
    yield index(peers)
    kept = route(b''.join(segment(4, number) for number in range(160)))
    apart = kept + communities(*range(40))
    for number in range(records):
        yield table(number, net(number), [entry(peer, apart if number % 2 else kept) for peer in range(peers)])


def records_of_paths(records, peers, segments):
    """Records of an entry of each peer, all with a path of these segments."""
    yield index(peers)
    attributes = route(b''.join(segments))
    for number in range(records):
        yield table(number, net(number), [entry(peer, attributes) for peer in range(peers)])


# Tables whose lines are partly those of the record before.

def long_route(number):
    """The attributes of a usual route, of which number is that of its path's last system."""
    return route(segment(4, 64496, 64497, 64498, number)) + communities(*range(12))


def many_and_one(turns):
    """A record with an entry of each of 1,000 peers, and one with an entry of one peer, so often."""
    yield index(1_000)
    for number in range(0, 2 * turns, 2):
        yield table(number, net(number), [entry(peer, long_route(peer)) for peer in range(1_000)])
        yield table(number + 1, net(number + 1), [entry(number % 1_000, long_route(number))])


def table_of_peers(records):
    """Records with an entry of each of 1,000 peers, whose routes stay."""
    yield index(1_000)
    for number in range(records):
        yield table(number, net(number), [entry(peer, long_route(peer)) for peer in range(1_000)])


def indexed_tables(records):
    """The same with an index in front of each."""
    for number in range(records):
        yield index(1_000)
        yield table(number, net(number), [entry(peer, long_route(peer)) for peer in range(1_000)])


def entries_in_order(records):
    """Records with an entry of each of 256 peers, whose routes stay."""
    yield index(256)
    for number in range(records):
        yield table(number, net(number), [entry(peer, long_route(peer)) for peer in range(256)])


# Attributes whose lines aren't kept.
LONG_LINE = route(segment(4, 64496)) + communities(*range(60))
THREE_SEGMENTS = route(segment(4, 64496) + segment(4, 64497) + segment(4, 64498))


def entries_of(records, attributes):
    """Records with an entry of each of 256 peers, all with these attributes."""
    yield index(256)
    for number in range(records):
        yield table(number, net(number), [entry(peer, attributes) for peer in range(256)])


def turned_entries(records):
    """The same, in another order in each record."""
    yield index(256)
    for number in range(records):
        order = [(peer * 77 + number) % 256 for peer in range(256)]
        yield table(number, net(number), [entry(peer, long_route(peer)) for peer in order])


def doubled_entries(records):
    """Records with two entries of each of eight peers, whose routes differ."""
    yield index(8)
    for number in range(records):
        yield table(number, net(number), [entry(peer, long_route(at)) for peer in range(8) for at in range(2)])


def doubled_alike(records):
    """The same with equal routes."""
    yield index(8)
    for number in range(records):
        yield table(number, net(number), [entry(peer, long_route(peer)) for peer in range(8) for _ in range(2)])


def last_communities_differ(records):
    """Records with an entry of each of 256 peers, whose last community is another in each record."""
    yield index(256)
    for number in range(records):
        attributes = route(segment(4, 64496, 64497, 64498)) + communities(*range(12), number)
        yield table(number, net(number), [entry(peer, attributes) for peer in range(256)])


def first_numbers_differ(records):
    """The same where the first number of the path is."""
    yield index(256)
    for number in range(records):
        attributes = route(segment(4, 1 + number, 64497, 64498)) + communities(*range(13))
        yield table(number, net(number), [entry(peer, attributes) for peer in range(256)])


def both_families(turns):
    """A record of IPv4 and one of IPv6, by turns, with an entry of each of 256 peers, whose routes stay."""
    yield index(256)
    for number in range(turns):
        yield table(number, net(number), [entry(peer, long_route(peer)) for peer in range(256)])
        yield wide_table(number, wide(48, bytes.fromhex('2001') + number.to_bytes(4, 'big')),
                         [entry(peer, long_route(peer) + table_hop(peer)) for peer in range(256)])


def old_table_of_peers(records):
    """Old tables: for each prefix an entry of each of 1,000 peers, whose routes stay."""
    for number in range(records):
        for peer in range(1_000):
            yield old_entry(number, peer, route(segment(2, 64496, 64497, peer)) + communities(*range(12)))


# Two paths of 990 octets.
MANY_SEGMENTS = [segment(4, 1 + number) for number in range(165)]
ONE_SEGMENT = [segment(4, *range(1, 248))]


def short_among_garbage(records, entries):
    """Records of so many entries of one peer, each with a path of 40 segments: of each record one route stays."""
    yield index(1)
    for number in range(records):
        first = number * entries
        yield table(number, net(number), [entry(0, route(segment(4, first + other) * 40)) for other in range(entries)])


def long_lines(records, entries):
    """Records of so many entries with 16,000 communities, whose lines have 210,000 octets each."""
    yield index(entries)
    long = communities(*range(49536, 65536))
    found = [entry(peer, route(segment(4, 1 + peer), long)) for peer in range(entries)]
    for number in range(records):
        yield table(number, net(number), found)


def equal_long_routes(records, peers, count):
    """Records of an entry of each peer, all with the same route of so many communities."""
    yield index(peers)
    attributes = route(segment(4, 64496), communities(*range(count)))
    for number in range(records):
        yield table(number, net(number), [entry(peer, attributes) for peer in range(peers)])


# Messages and entries.

def message_of(size):
    """A message of so many octets, which announces prefixes of 8 bits and at most one of none."""
    attributes = route(segment(4, 64496))
    room = size - 23 - len(attributes)
    prefixes = b''.join(prefix(8, 1 + number % 200) for number in range(room // 2))
    return message(b'', attributes, prefixes + prefix(0, 0) * (room % 2))


def turns(count):
    """A message of 4,097 octets and an entry of an old table, by turns."""
    long, short = message_of(4097), old_entry(1, 0, route(segment(2, 64496)))
    for _ in range(count):
        yield long
        yield short


def one_peer_table(records, entries):
    """Records of so many entries of one peer, each with a community of its own."""
    yield index(1)
    found = [entry(0, route(segment(4, 64496, number), communities(number))) for number in range(entries)]
    for number in range(records):
        yield table(number, net(number), found)


def many_peers_table(records, peers):
    """Records of an entry of each of so many peers."""
    yield index(peers)
    found = [entry(peer, route(segment(4, 64496, peer), communities(peer))) for peer in range(peers)]
    for number in range(records):
        yield table(number, net(number), found)


# Routes of one hash: how known_routes mixes a number of 64 bits into one, and what the highest 32 bits are then.

MULTIPLIER, WORD = 0x9E3779B97F4A7C15, 2 ** 64 - 1


def mixed(hashed, number):
    product = (hashed ^ number) * MULTIPLIER
    return product >> 64 ^ product & WORD


def before_communities(numbers, count):
    """The hash of the attributes of `route` in a table of IPv4 before so many communities are mixed in."""
    hashed = mixed(0, SECONDS | 8 << 32)
    pairs = [low | high << 32 for low, high in zip(numbers[::2], numbers[1::2])]
    rest = numbers[len(pairs) * 2:]
    # No preference and metric, the next hop, a segment of that kind, and the mark of communities.
    for number in (0, 0xC0000201, len(numbers) << 3 | 1, *pairs, *rest, count << 3 | 4):
        hashed = mixed(hashed, number)
    return hashed


@cache
def pairs_of_one_hash(numbers, count):
    """So many pairs of communities with which routes of a path of these numbers have one hash."""
    before, wanted = before_communities(numbers, 2), 0x12345678
    by_product = {}
    for number in range(2 ** 20):
        by_product.setdefault((number * MULTIPLIER & WORD) >> 32, number)
    found, high = [], 0
    while len(found) < count:
        # With the high half fixed, what the low half has to add to the highest bits of the lower half of the product,
        # unless it adds to those of the upper half too.
        above = wanted ^ high * MULTIPLIER >> 64
        low = by_product.get((above - high * (MULTIPLIER & 0xFFFFFFFF)) & 0xFFFFFFFF)
        if low is not None:
            pair = before ^ (high << 32 | low)
            if mixed(before, pair) >> 32 == wanted:
                found.append((pair & 0xFFFFFFFF, pair >> 32))
        high += 1
    return found


def turning_routes(records, peers, count, alike):
    """Records of an entry of each peer, each with one of so many routes, of one hash or not."""
    numbers = (64496,) * 40
    pairs = pairs_of_one_hash(numbers, count) if alike else [(number, number * number) for number in range(count)]
    found = [route(segment(4, *numbers), attribute(COMMUNITIES, struct.pack('>II', *pair))) for pair in pairs]
    yield index(peers)
    turn = 1
    for number in range(records):
        entries = []
        for peer in range(peers):
            turn = (turn * 1103515245 + 12345) & 0x7FFFFFFF
            entries.append(entry(peer, found[(turn >> 8) % count]))
        yield table(number, net(number), entries)


# What is played.

def announcement(number, *found):
    """The announcement of the address of a number, with so many communities of numbers."""
    return message(b'', route(segment(4, 64496), communities(*found)), host(number))


def short_attributes(count):
    """Announcements of three communities."""
    for number in range(count):
        yield announcement(number, number >> 16, number & 0xFFFF, 1)


def short_behind_long_attributes(count):
    """Each behind an UPDATE that announces nothing, and has 900 communities."""
    long = message(b'', route(segment(4, 64496), communities(*range(900))), b'')
    for announced in short_attributes(count):
        yield long
        yield announced


def short_routes(count):
    """Announcements of a path of one number, each of its own."""
    for number in range(count):
        yield message(b'', route(segment(4, 1 + number)), host(number))


def short_behind_room(count):
    """Each behind an UPDATE that announces nothing, and has 4 segments of 9 numbers and 32 communities."""
    long = message(b'', route(segment(4, *range(9)) * 4, communities(*range(32))), b'')
    for announced in short_routes(count):
        yield long
        yield announced


def garbage(count, live, segments):
    """So many small routes that stay, and then long ones of one prefix, each in the place of the last."""
    for number in range(live):
        yield announcement(number, number >> 16, number & 0xFFFF)
    found = [segment(2, 1 + number) for number in range(count + 7 * segments)]
    for number in range(count):
        yield message(b'', route(b''.join(found[number:number + 7 * segments:7])), net(0x10000), width=2)


def all_lengths(count, times):
    """The prefixes ::/0 to ::/128, and then messages of ::/0 and ::/1, with so many of each."""
    attributes = segment(4, 64496)
    yield message(b'', route(attributes, reach(b''.join(wide(bits) for bits in range(129)))), b'')
    again = message(b'', route(attributes, reach((wide(0) + wide(1)) * times)), b'')
    for _ in range(count):
        yield again


def wide(bits, octets=b''):
    """The IPv6 prefix of so many bits that begins with these octets."""
    return bytes([bits]) + octets.ljust((bits + 7) // 8, b'\0')


def flapping(count, each):
    """So many messages of new addresses, the loss of the session, and the same messages once more."""
    attributes = route(segment(4, 64496))
    messages = [message(b'', attributes, hosts(number * each, each)) for number in range(count)]
    yield from messages
    yield loss()
    yield from messages


def withdrawn(count, each):
    """Messages that announce so many new addresses, each with one behind it that withdraws them."""
    for number in range(count):
        found = hosts(number * each, each)
        yield message(b'', route(segment(4, 64496)), found)
        yield message(found, b'', b'')


def coming_and_going(rounds, prefixes):
    """So often a message that announces these addresses, and one that withdraws them."""
    found = hosts(0, prefixes)
    for _ in range(rounds):
        yield message(b'', route(segment(4, 64496)), found)
        yield message(found, b'', b'')


def hosts_below_keys(rounds, keys):
    """So often 11,400 hosts of IPv6 are announced and withdrawn, a third of them in a message, below so many keys, each
    of a bit more than the one above it, that have no routes."""
    chain = b''.join(wide(bits) for bits in range(keys))
    found = [b''.join(wide(128, bytes(14) + number.to_bytes(2, 'big')) for number in range(start, start + 3_800))
             for start in range(0, 11_400, 3_800)]
    up = [message(b'', route(segment(4, 64496), reach(it)), b'') for it in (chain, *found)]
    down = [message(b'', unreach(it), b'') for it in (chain, *found)]
    if keys:
        yield from (up[0], down[0])
    for _ in range(rounds):
        yield from (*up[1:], *down[1:])


def many_peers(count):
    """The announcement of an address by each of so many peers."""
    for peer in range(count):
        yield message(b'', route(segment(4, 64496)), host(0), peer=peer)


def many_peers_gone(count, addresses):
    """The same, and then their withdrawals; and then announcements of so many addresses by one peer."""
    yield from many_peers(count)
    for peer in range(count):
        yield message(host(0), b'', b'', peer=peer)
    yield from short_attributes(addresses)


def of_both_families(peer, count, number):
    """The announcement of so many prefixes of each family by a peer, with a path of this number."""
    return message(b'', route(segment(4, number), reach(b''.join(map(wide, range(count))))), zeros_of(count), peer=peer)


def zeros_of(count):
    """So many prefixes of IPv4 whose bits are 0, each of a bit more than the one before."""
    return b''.join(prefix(bits, 0) for bits in range(count))


def announced_thrice(peers, count):
    """Each peer announces so many prefixes of each family, three times."""
    for number in range(3):
        yield from (of_both_families(peer, count, 1 + number) for peer in range(peers))


def claimed_twice(peers, count):
    """Each peer announces so many prefixes of each family, withdraws them, and announces them again."""
    yield from (of_both_families(peer, count, 1) for peer in range(peers))
    for peer in range(peers):
        yield message(zeros_of(count), unreach(b''.join(map(wide, range(count)))), b'', peer=peer)
    yield from (of_both_families(peer, count, 2) for peer in range(peers))


def emptied_peers(peers):
    """Each peer announces a prefix, and then each withdraws it."""
    yield from many_peers(peers)
    yield from (message(host(0), b'', b'', peer=peer) for peer in range(peers))


def alike(count):
    """Announcements of IPv6 prefixes of 80 bits that share 48, and then their withdrawals."""
    found = [wide(80, bytes.fromhex('20010DB80001') + number.to_bytes(4, 'big')) for number in range(count)]
    for it in found:
        yield message(b'', route(segment(4, 64496), reach(it)), b'')
    for it in found:
        yield message(b'', unreach(it), b'')


def hosts(start, count):
    return b''.join(host(number) for number in range(start, start + count))
