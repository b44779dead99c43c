"""Reads the records of an MRT file, so that what the program makes of it can be compared.

It is written from RFC 6396 (records) and RFC 4271, 4760, 2545, 6793, 5065 and 1997 (messages and attributes), and
the manual page where these leave a choice; not from the program. It is there to be plain. Beside what a record
says it tells names of what it holds, or which part is malformed, so that one can count what was met.
"""
import struct
from typing import NamedTuple

LONGEST_RECORD = 16_777_216

# Types and subtypes (RFC 6396, sections 4.2 to 4.5).
TABLE_DUMP, TABLE_DUMP_V2, BGP4MP, BGP4MP_ET = 12, 13, 16, 17
SESSION_RECORDS = {0: 'STATE_CHANGE', 1: 'MESSAGE', 4: 'MESSAGE_AS4', 5: 'STATE_CHANGE_AS4'}
RECORDS = {
    (TABLE_DUMP, 1): 'TABLE_DUMP IPv4',
    (TABLE_DUMP, 2): 'TABLE_DUMP IPv6',
    (TABLE_DUMP_V2, 1): 'PEER_INDEX_TABLE',
    (TABLE_DUMP_V2, 2): 'RIB_IPV4_UNICAST',
    (TABLE_DUMP_V2, 4): 'RIB_IPV6_UNICAST',
    **{(BGP4MP, subtype): 'BGP4MP ' + name for subtype, name in SESSION_RECORDS.items()},
    **{(BGP4MP_ET, subtype): 'BGP4MP_ET ' + name for subtype, name in SESSION_RECORDS.items()},
}

# The octets of an address by the number of its family, and the name of the family by these octets.
ADDRESS_SIZES = {1: 4, 2: 16}
FAMILIES = {4: 'IPv4', 16: 'IPv6'}
# What prefixes are for (RFC 4760, section 6).
UNICAST = 1

UPDATE = 2
MESSAGES = {1: 'OPEN', UPDATE: 'UPDATE', 3: 'NOTIFICATION', 4: 'KEEPALIVE'}

ORIGIN, AS_PATH, NEXT_HOP, MULTI_EXIT_DISC, LOCAL_PREF, ATOMIC_AGGREGATE, AGGREGATOR, COMMUNITIES = range(1, 9)
MP_REACH_NLRI, MP_UNREACH_NLRI, AS4_PATH, AS4_AGGREGATOR = 14, 15, 17, 18
ATTRIBUTES = {
    ORIGIN: 'ORIGIN', AS_PATH: 'AS_PATH', NEXT_HOP: 'NEXT_HOP', MULTI_EXIT_DISC: 'MULTI_EXIT_DISC',
    LOCAL_PREF: 'LOCAL_PREF', ATOMIC_AGGREGATE: 'ATOMIC_AGGREGATE', AGGREGATOR: 'AGGREGATOR',
    COMMUNITIES: 'COMMUNITIES', MP_REACH_NLRI: 'MP_REACH_NLRI', MP_UNREACH_NLRI: 'MP_UNREACH_NLRI',
    AS4_PATH: 'AS4_PATH', AS4_AGGREGATOR: 'AS4_AGGREGATOR',
}
EXTENDED_LENGTH = 0x10
ORIGINS = ('IGP', 'EGP', 'INCOMPLETE')
AS_SET, AS_SEQUENCE, AS_CONFED_SEQUENCE, AS_CONFED_SET = range(1, 5)
SEGMENTS = {AS_SET: 'AS_SET', AS_SEQUENCE: 'AS_SEQUENCE', AS_CONFED_SEQUENCE: 'AS_CONFED_SEQUENCE',
            AS_CONFED_SET: 'AS_CONFED_SET'}
AS_TRANS = 23456

WELL_KNOWN = {0xFFFFFF01: 'no-export', 0xFFFFFF02: 'no-advertise', 0xFFFFFF03: 'local-AS'}
# The state of a session that is up (RFC 6396, section 4.4.1).
ESTABLISHED = 6


class Peer(NamedTuple):
    address: bytes
    number: int


class Attributes(NamedTuple):
    """Those of a route; a path is segments, each a type and numbers."""
    origin: str
    path: tuple
    next_hop: bytes
    local_pref: int
    med: int
    communities: tuple
    atomic: bool
    aggregator: tuple


class Route(NamedTuple):
    time: int
    attributes: Attributes


# A prefix is an address and a number of bits.

class Announce(NamedTuple):
    peer: Peer
    prefix: tuple
    route: Route


class Withdraw(NamedTuple):
    peer: Peer
    prefix: tuple


class State(NamedTuple):
    peer: Peer
    old: int
    new: int


class Event(NamedTuple):
    """A record that is read: the first two fields of its lines, what it says, and names of what it holds."""
    tag: str
    time: str
    items: list
    notes: set


class Fault(Exception):
    """A record that isn't read: the kind of its fault, the report's text, and which part is malformed."""

    def __init__(self, kind, text=None, part=None):
        super().__init__(text or kind)
        self.kind, self.text, self.part = kind, text or kind, part


def malformed(part):
    return Fault('malformed', part=part)


class Result(NamedTuple):
    """What a record is, with its number from 1 and the offset of its header; either an event or a fault."""
    number: int
    offset: int
    event: Event = None
    fault: Fault = None


# Octets.

class Octets:
    """Octets that are read from front to back; where some are missing the part is malformed."""

    def __init__(self, octets, part):
        self.octets, self.part, self.at = octets, part, 0

    def take(self, count):
        start, self.at = self.at, self.at + count
        if self.at > len(self.octets):
            raise malformed(self.part)
        return self.octets[start:self.at]

    def number(self, size):
        return int.from_bytes(self.take(size), 'big')

    def rest(self):
        return self.take(len(self.octets) - self.at)

    def ended(self):
        return self.at == len(self.octets)


# Prefixes (RFC 4271, section 4.3).

def prefix_of(address, bits):
    """The prefix of the first bits of an address; those behind are 0."""
    width = 8 * len(address)
    if bits > width:
        raise malformed('length of a prefix')
    kept = int.from_bytes(address, 'big') >> (width - bits) << (width - bits)
    return kept.to_bytes(len(address), 'big'), bits


def read_prefix(left, size):
    bits = left.number(1)
    if bits > 8 * size:
        raise malformed('length of a prefix')
    return prefix_of(left.take((bits + 7) // 8).ljust(size, b'\0'), bits)


def read_prefixes(octets, size):
    left, prefixes = Octets(octets, 'list of prefixes'), []
    while not left.ended():
        prefixes.append(read_prefix(left, size))
    return prefixes


# Attributes (RFC 4271, sections 4.3 and 5).

def of_size(value, sizes, kind):
    if len(value) not in sizes:
        raise malformed(ATTRIBUTES[kind])
    return value


def read_origin(value):
    if len(value) != 1 or value[0] >= len(ORIGINS):
        raise malformed('ORIGIN')
    return ORIGINS[value[0]]


def read_path(value, width):
    left, path = Octets(value, 'AS_PATH'), []
    while not left.ended():
        kind, count = left.number(1), left.number(1)
        if kind not in SEGMENTS:
            raise malformed('type of a segment')
        if count == 0:
            raise malformed('segment of no numbers')
        path.append((kind, tuple(left.number(width) for _ in range(count))))
    return path


def read_aggregator(value):
    """Its number, of two octets or of four as its length tells, and its address."""
    return int.from_bytes(value[:-4], 'big'), value[-4:]


def read_communities(value):
    if len(value) % 4:
        raise malformed('COMMUNITIES')
    return tuple(int.from_bytes(value[at:at + 4], 'big') for at in range(0, len(value), 4))


def read_next_hop(left):
    """The address of a next hop behind its length, without the link-local one (RFC 2545, section 3)."""
    size = left.number(1)
    if size not in (4, 16, 32):
        raise malformed('length of a next hop')
    return left.take(size)[:16]


class AttributeList:
    """The attributes of an UPDATE or of an entry of a table: of each type the first."""

    def __init__(self, octets, width, once):
        self.width, self.values, self.notes = width, {}, set()
        left = Octets(octets, 'list of attributes')
        while not left.ended():
            flags, kind = left.number(1), left.number(1)
            value = left.take(left.number(2 if flags & EXTENDED_LENGTH else 1))
            self.note(flags, kind)
            if kind in self.values and kind in once:
                raise malformed('second ' + ATTRIBUTES[kind])
            self.values.setdefault(kind, value)

    def note(self, flags, kind):
        self.notes.add(ATTRIBUTES.get(kind, 'unknown attribute'))
        if kind in self.values:
            self.notes.add('second attribute of a type')
        if flags & EXTENDED_LENGTH:
            self.notes.add('extended length')

    def sized(self, kind, *sizes):
        """The value of a type, where it is there."""
        value = self.values.get(kind)
        return None if value is None else of_size(value, sizes, kind)

    def number(self, kind):
        value = self.sized(kind, 4)
        return int.from_bytes(value, 'big') if value else 0

    def read(self):
        """The attributes, with NEXT_HOP as next hop."""
        origin = self.values.get(ORIGIN)
        path = read_path(self.values.get(AS_PATH, b''), self.width)
        aggregator = self.sized(AGGREGATOR, 6, 8)
        aggregator = aggregator and read_aggregator(aggregator)
        if self.width == 2:
            path, aggregator = self.with_wide_numbers(path, aggregator)
        return Attributes(
            origin='' if origin is None else read_origin(origin),
            path=tuple(path),
            next_hop=self.sized(NEXT_HOP, 4),
            local_pref=self.number(LOCAL_PREF),
            med=self.number(MULTI_EXIT_DISC),
            communities=read_communities(self.values.get(COMMUNITIES, b'')),
            atomic=self.sized(ATOMIC_AGGREGATE, 0) is not None,
            aggregator=aggregator,
        )

    def with_wide_numbers(self, path, aggregator):
        """The path and the aggregator with the numbers of AS4_PATH and AS4_AGGREGATOR (RFC 6793, section 4.2.3)."""
        wide = self.values.get(AS4_AGGREGATOR, b'')
        if len(wide) == 8 and aggregator:
            if aggregator[0] != AS_TRANS:
                self.notes.add('AS4 attributes ignored')
                return path, aggregator
            self.notes.add('AS4_AGGREGATOR in place of AGGREGATOR')
            aggregator = read_aggregator(wide)
        return self.with_wide_path(path), aggregator

    def with_wide_path(self, path):
        if AS4_PATH not in self.values:
            return path
        try:
            wide = read_path(self.values[AS4_PATH], 4)
        except Fault:
            self.notes.add('AS4_PATH discarded')
            return path
        return merged(path, wide, self.notes)


def weight_of(segment):
    """What a segment counts in the length of a path (RFC 4271, section 9.1.2.2; RFC 5065, section 5.3)."""
    kind, numbers = segment
    return {AS_SEQUENCE: len(numbers), AS_SET: 1}.get(kind, 0)


def merged(path, wide, notes):
    """AS_PATH with the end that AS4_PATH tells with wide numbers (RFC 6793, section 4.2.3)."""
    wide = [(kind, numbers) for kind, numbers in wide if kind in (AS_SEQUENCE, AS_SET)]
    room = sum(map(weight_of, path)) - sum(map(weight_of, wide))
    if room < 0:
        notes.add('AS4_PATH longer than AS_PATH')
        return path
    notes.add('AS4_PATH merged')
    return front_of(path, room) + wide


def front_of(path, room):
    """The longest front of a path that has this weight; of segments sequences alone are cut."""
    kept = []
    for kind, numbers in path:
        weight = weight_of((kind, numbers))
        if weight > room:
            if kind == AS_SEQUENCE and room:
                kept.append((kind, numbers[:room]))
            break
        kept.append((kind, numbers))
        room -= weight
    return kept


def read_entry_attributes(octets, width, size):
    """The attributes of an entry of a table, with the next hop of its family (RFC 6396, section 4.3.4)."""
    found = AttributeList(octets, width, once={MP_REACH_NLRI})
    attributes = found.read()
    if MP_REACH_NLRI in found.values:
        hop = read_entry_hop(found.values[MP_REACH_NLRI], found.notes)
        if size == 16 or not attributes.next_hop:
            attributes = attributes._replace(next_hop=hop)
    return attributes, found.notes


def read_entry_hop(value, notes):
    """The next hop of MP_REACH_NLRI, which in an entry has its front only, though some write all of it."""
    left = Octets(value, 'MP_REACH_NLRI')
    if value.startswith(b'\0'):
        notes.add('MP_REACH_NLRI of full form in an entry')
        left.take(3)
    return read_next_hop(left)


# Messages (RFC 4271, section 4).

class Update(NamedTuple):
    """The prefixes that an UPDATE withdraws, and lists of those that it announces, each with its attributes."""
    withdrawn: list
    announced: list
    notes: set


def read_message(octets, width):
    """The name of a message, and its content where it is an UPDATE."""
    left = Octets(octets, 'message')
    # The marker, which isn't looked at.
    left.take(16)
    if left.number(2) != len(octets):
        raise malformed('length of a message')
    kind = left.number(1)
    update = read_update(left.rest(), width) if kind == UPDATE else None
    return MESSAGES.get(kind, 'message of another type'), update


def read_update(octets, width):
    left = Octets(octets, 'UPDATE')
    withdrawn = read_prefixes(left.take(left.number(2)), 4)
    found = AttributeList(left.take(left.number(2)), width, once={MP_REACH_NLRI, MP_UNREACH_NLRI})
    announced = read_prefixes(left.rest(), 4)
    attributes = found.read()
    gone = read_unreachable(found) if MP_UNREACH_NLRI in found.values else []
    hop, reached = read_reachable(found) if MP_REACH_NLRI in found.values else (None, [])
    both = [(announced, attributes), (reached, attributes._replace(next_hop=hop))]
    return Update(withdrawn + gone, both, found.notes)


def unicast_size(left, notes):
    """The octets of an address where the family is one of those that are read, and 0 where it isn't."""
    family, further = left.number(2), left.number(1)
    if family not in ADDRESS_SIZES or further != UNICAST:
        notes.add('family that is not read')
        return 0
    return ADDRESS_SIZES[family]


def read_unreachable(found):
    """The prefixes of MP_UNREACH_NLRI (RFC 4760, section 4)."""
    left = Octets(found.values[MP_UNREACH_NLRI], 'MP_UNREACH_NLRI')
    size = unicast_size(left, found.notes)
    return read_prefixes(left.rest(), size) if size else []


def read_reachable(found):
    """The next hop and the prefixes of MP_REACH_NLRI (RFC 4760, section 3)."""
    left = Octets(found.values[MP_REACH_NLRI], 'MP_REACH_NLRI')
    size = unicast_size(left, found.notes)
    if not size:
        return None, []
    hop = read_next_hop(left)
    left.take(1)
    return hop, read_prefixes(left.rest(), size)


# Bodies of records (RFC 6396, section 4).

def read_index(body):
    """The peers of a PEER_INDEX_TABLE."""
    left = Octets(body, 'PEER_INDEX_TABLE')
    left.take(4)
    left.take(left.number(2))
    return [read_peer(left) for _ in range(left.number(2))]


def read_peer(left):
    kind = left.number(1)
    left.take(4)
    address = left.take(16 if kind & 1 else 4)
    return Peer(address, left.number(4 if kind & 2 else 2))


def read_rib(body, size):
    """The prefix, and the peer index, the time and the attributes of each entry; names of what they hold."""
    left = Octets(body, 'RIB')
    left.take(4)
    prefix, entries, notes = read_prefix(left, size), [], set()
    for _ in range(left.number(2)):
        index, time = left.number(2), left.number(4)
        attributes, met = read_entry_attributes(left.take(left.number(2)), 4, size)
        entries.append((index, time, attributes))
        notes |= met
    return prefix, entries, notes


def read_old_entry(body, size):
    """The peer, the prefix, the time and the attributes of a TABLE_DUMP, and names of what it holds."""
    left = Octets(body, 'TABLE_DUMP')
    left.take(4)
    prefix = prefix_of(left.take(size), left.number(1))
    left.take(1)
    time = left.number(4)
    peer = Peer(left.take(size), left.number(2))
    attributes, notes = read_entry_attributes(left.take(left.number(2)), 2, size)
    return peer, prefix, time, attributes, notes


def read_session(left, width):
    """The peer of a session; what is left is what happened in it."""
    number = left.number(width)
    left.take(width + 2)
    family = left.number(2)
    if family not in ADDRESS_SIZES:
        raise malformed('family of a session')
    peer = Peer(left.take(ADDRESS_SIZES[family]), number)
    left.take(ADDRESS_SIZES[family])
    return peer


class Source:
    """The records of a file, one after the other, with the peer index that was read last."""

    def __init__(self, change):
        self.change, self.peers = change, None

    def read(self, seconds, kind, subtype, body):
        """The event of a record, or its fault."""
        if (kind, subtype) not in RECORDS:
            raise Fault('unsupported', 'unsupported type %d subtype %d' % (kind, subtype))
        notes = {RECORDS[kind, subtype]}
        if kind == TABLE_DUMP:
            return self.old_entry(seconds, body, ADDRESS_SIZES[subtype], notes)
        if kind == TABLE_DUMP_V2 and subtype == 1:
            self.peers = read_index(body)
            return Event('TABLE_DUMP2', seconds, [], notes)
        if kind == TABLE_DUMP_V2:
            return self.entries(seconds, body, 4 if subtype == 2 else 16, notes)
        return self.session(seconds, kind, subtype, body, notes)

    def old_entry(self, seconds, body, size, notes):
        peer, prefix, originated, attributes, met = read_old_entry(body, size)
        route = Route(originated if self.change else seconds, attributes)
        return Event('TABLE_DUMP', seconds, [Announce(peer, prefix, route)], notes | met)

    def entries(self, seconds, body, size, notes):
        prefix, entries, met = read_rib(body, size)
        if self.peers is None:
            raise Fault('no peer index')
        items = []
        for index, originated, attributes in entries:
            if index >= len(self.peers):
                raise Fault('peer index', 'peer index %d' % index)
            route = Route(originated if self.change else seconds, attributes)
            items.append(Announce(self.peers[index], prefix, route))
        return Event('TABLE_DUMP2', seconds, items, notes | met)

    def session(self, seconds, kind, subtype, body, notes):
        left = Octets(body, 'session')
        tag, time = 'BGP4MP', str(seconds)
        if kind == BGP4MP_ET:
            tag, micros = 'BGP4MP_ET', left.number(4)
            if micros > 999_999:
                raise malformed('microseconds')
            time += '.%06d' % micros
        width = 4 if subtype in (4, 5) else 2
        peer = read_session(left, width)
        if subtype in (0, 5):
            return Event(tag, time, [State(peer, left.number(2), left.number(2))], notes)
        name, update = read_message(left.rest(), width)
        items = items_of(peer, update, seconds) if update else []
        return Event(tag, time, items, notes | {name} | (update.notes if update else set()))


def items_of(peer, update, seconds):
    items = [Withdraw(peer, prefix) for prefix in update.withdrawn]
    for prefixes, attributes in update.announced:
        route = Route(seconds, attributes)
        items += [Announce(peer, prefix, route) for prefix in prefixes]
    return items


def results_of(octets, change=False):
    """What each record of a file is; the times of a table are the originated ones where `change` is set."""
    source, at, number = Source(change), 0, 0
    while at < len(octets):
        number += 1
        length = int.from_bytes(octets[at + 8:at + 12], 'big')
        end = at + 12 + length
        if at + 12 <= len(octets) and length > LONGEST_RECORD:
            yield Result(number, at, fault=Fault('too long', 'length %d too long' % length))
            return
        if end > len(octets):
            yield Result(number, at, fault=Fault('cut record'))
            return
        try:
            event = source.read(*struct.unpack('>IHH', octets[at:at + 8]), octets[at + 12:end])
            yield Result(number, at, event=event)
        except Fault as fault:
            yield Result(number, at, fault=fault)
        at = end
