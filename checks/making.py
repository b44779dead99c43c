"""Makes records of MRT files, whole ones (RFC 6396, 4271, 4760, 6793) and damaged ones."""
import struct
from dataclasses import dataclass

import reading
from reading import AGGREGATOR, AS4_AGGREGATOR, AS4_PATH, AS_PATH, ATOMIC_AGGREGATE, BGP4MP, BGP4MP_ET, COMMUNITIES
from reading import LOCAL_PREF, MP_REACH_NLRI, MP_UNREACH_NLRI, MULTI_EXIT_DISC, NEXT_HOP, ORIGIN, TABLE_DUMP
from reading import TABLE_DUMP_V2, UPDATE


# Parts of records: octets, a list of parts, or parts behind a number.

@dataclass
class Counted:
    """Parts behind the number of their octets, or of the parts; `more` is always added to it, `wrong` by damage."""
    size: int
    parts: list
    more: int = 0
    of_parts: bool = False
    wrong: int = 0


def octets_of(part):
    if isinstance(part, bytes):
        return part
    if isinstance(part, list):
        return b''.join(map(octets_of, part))
    inside = octets_of(part.parts)
    counted = (len(part.parts) if part.of_parts else len(inside)) + part.more + part.wrong
    return number(part.size, counted % (1 << 8 * part.size)) + inside


def lists_in(part):
    """All lists of parts, outer ones first."""
    inside = part.parts if isinstance(part, Counted) else part
    if isinstance(inside, list):
        yield inside
        for it in inside:
            yield from lists_in(it)


def number(size, value):
    return value.to_bytes(size, 'big')


def records_in(octets):
    """The octets of each record."""
    at = 0
    while at < len(octets):
        end = at + 12 + int.from_bytes(octets[at + 8:at + 12], 'big')
        yield octets[at:end]
        at = end


class Maker:
    """Makes the records of a file, of all kinds, nearly always of their form, with so many times the usual lists.

    Peers, prefixes and lists of attributes come again, so that routes are withdrawn and lines are alike.
    """

    NARROW_NUMBERS = (0, 1, 174, 23456, 23456, 64500, 64501, 64502, 65535)
    # The second ends with the bits of AS_TRANS.
    WIDE_NUMBERS = (65536, 88992, 4200000000, 0xFFFFFFFF)
    LENGTHS = {4: (0, 1, 7, 8, 9, 15, 16, 17, 22, 23, 24, 24, 25, 31, 32),
               16: (0, 1, 8, 9, 16, 29, 32, 33, 47, 48, 48, 63, 64, 65, 127, 128)}
    GROUPS = (0, 0, 0, 0, 1, 0xA, 0xDB8, 0x20F0, 0xFFFF)
    FLAGS = (0x40, 0x80, 0xC0, 0xE0, 0x0F)
    UNKNOWN = (0, 9, 10, 16, 32, 128, 255)
    # Numbers of families that aren't read: those of another family, or not unicast.
    OTHER_FAMILIES = ((1, 2), (2, 2), (1, 128), (2, 128), (25, 65), (16388, 71), (0, 1), (3, 1))
    UNREAD = ((TABLE_DUMP, (0, 3, 6)), (TABLE_DUMP_V2, (0, 3, 5, 6, 7, 8, 9, 10, 11, 12)),
              (BGP4MP, (2, 3, 6, 7, 8, 9, 10, 11, 0x100)), (BGP4MP_ET, (2, 3, 6, 7, 8, 9, 10, 11)),
              (0, (0, 1)), (11, (0, 1)), (14, (1, 2)), (15, (1, 4)), (32, (0, 2)), (48, (0,)), (0x100C, (1,)))

    def __init__(self, chance, times=1):
        self.chance, self.times = chance, times
        self.sessions = [(self.address(size), self.as_number(width)) for size in (4, 16) for width in (2, 2, 4)]
        self.nets = {size: [self.address(size) for _ in range(4)] for size in (4, 16)}
        self.lengths = {size: chance.choices(lengths, k=5) for size, lengths in self.LENGTHS.items()}
        self.peer_count = 0
        self.last_attributes = {}

    def often(self, share):
        return self.chance.random() < share

    def some(self, most, make):
        return [make() for _ in range(self.chance.randint(0, most * self.times))]

    def random_octets(self, most):
        return self.chance.randbytes(self.chance.randint(0, most))

    def ignored(self):
        """What may follow the last field of a body."""
        return self.random_octets(3) if self.often(0.05) else b''

    def as_number(self, width):
        return self.chance.choice(self.NARROW_NUMBERS if width == 2 or self.often(0.6) else self.WIDE_NUMBERS)

    def as_octets(self, width):
        return number(width, self.as_number(width))

    def address(self, size):
        """An address, of IPv6 one with some groups of 0."""
        if size == 4:
            return bytes([self.chance.choice((0, 10, 192, 255))]) + self.chance.randbytes(3)
        return struct.pack('>8H', *self.chance.choices(self.GROUPS, k=8))

    def net(self, size):
        """An address and a number of bits, often ones that come again."""
        if self.often(0.8):
            return self.chance.choice(self.nets[size]), self.chance.choice(self.lengths[size])
        return self.address(size), self.chance.randint(0, 8 * size)

    def prefix(self, size):
        address, bits = self.net(size)
        return [number(1, bits), address[:(bits + 7) // 8]]

    # Attributes.

    def attribute(self, kind, parts):
        extended = self.times > 1 or self.often(0.15)
        flags = self.chance.choice(self.FLAGS) | (reading.EXTENDED_LENGTH if extended else 0)
        return [number(1, flags), number(1, kind), Counted(2 if extended else 1, parts)]

    def segment(self, width):
        kind = self.chance.choice((1, 1, 1, 2, 2, 2, 2, 2, 2, 3, 3, 4))
        numbers = [self.as_octets(width) for _ in range(self.chance.randint(1, 4))]
        return [number(1, kind), Counted(1, numbers, of_parts=True)]

    def path(self, width, most):
        return self.some(most, lambda: self.segment(width))

    def community(self):
        return number(4, 0xFFFFFF00 + self.chance.randrange(5)) if self.often(0.3) else self.chance.randbytes(4)

    def aggregator(self, width):
        return [self.as_octets(width), self.address(4)]

    def hop(self):
        size = self.chance.choice((4, 16, 16, 32))
        return Counted(1, [self.address(size) if size < 32 else self.address(16) + self.address(16)])

    def family(self):
        """The numbers of a family, nearly always of one that is read, and the octets of its addresses."""
        size = self.chance.choice((4, 16, 16))
        family = self.chance.choice(self.OTHER_FAMILIES) if self.often(0.1) else (1 if size == 4 else 2, 1)
        return [number(2, family[0]), number(1, family[1])], size

    def unreach(self):
        family, size = self.family()
        return [family, self.some(3, lambda: self.prefix(size))]

    def reach(self):
        family, size = self.family()
        return [family, self.hop(), self.chance.choice((b'\0', b'\x09')), self.some(3, lambda: self.prefix(size))]

    def reach_of_entry(self):
        return self.reach() if self.often(0.3) else [self.hop(), self.ignored()]

    def attribute_makers(self, width, in_entry):
        """The share of lists that have an attribute, its type, and what makes its value."""
        narrow = width == 2
        return (
            (0.85, ORIGIN, lambda: [number(1, self.chance.randrange(3))]),
            (0.9, AS_PATH, lambda: self.path(width, 4)),
            (0.75, NEXT_HOP, lambda: [self.address(4)]),
            (0.2, MULTI_EXIT_DISC, lambda: [self.chance.randbytes(4)]),
            (0.2, LOCAL_PREF, lambda: [self.chance.randbytes(4)]),
            (0.15, ATOMIC_AGGREGATE, list),
            (0.3, AGGREGATOR, lambda: self.aggregator(2 if narrow and self.often(0.8) else 4)),
            (0.3, COMMUNITIES, lambda: self.some(4, self.community)),
            (0.4, MP_REACH_NLRI, self.reach_of_entry if in_entry else self.reach),
            (0.1 if in_entry else 0.3, MP_UNREACH_NLRI, self.unreach),
            (0.5 if narrow else 0.1, AS4_PATH, lambda: self.path(4, 3)),
            (0.3 if narrow else 0.1, AS4_AGGREGATOR, lambda: self.aggregator(4)),
            (0.2, self.chance.choice(self.UNKNOWN), lambda: [self.random_octets(12)]),
        )

    def new_attributes(self, width, in_entry):
        found = [self.attribute(kind, make()) for share, kind, make in self.attribute_makers(width, in_entry)
                 if self.often(share)]
        if self.often(0.2):
            self.chance.shuffle(found)
        if found and self.often(0.06):
            found.append(self.chance.choice(found))
        return Counted(2, found)

    def attributes(self, width, in_entry):
        """A list of attributes, at times the last one again; where lists are large nearly always."""
        if (width, in_entry) not in self.last_attributes or self.often(0.8 / self.times):
            self.last_attributes[width, in_entry] = self.new_attributes(width, in_entry)
        return self.last_attributes[width, in_entry]

    # Records.

    def record(self, kind, subtype, body):
        seconds = 0xFFFFFFFF if self.often(0.05) else 1_700_000_000 + self.chance.randrange(10)
        if kind == BGP4MP_ET:
            micros = 1_000_000 if self.often(0.03) else self.chance.choice((0, 5, 999_999))
            body = [number(4, micros), *body]
        return [number(4, seconds), number(2, kind), number(2, subtype), Counted(4, body)]

    def index(self):
        peers = [self.index_peer() for _ in range(self.chance.randint(0, 5))]
        self.peer_count = len(peers)
        return self.record(TABLE_DUMP_V2, 1, [
            self.chance.randbytes(4), Counted(2, [self.random_octets(5)]), Counted(2, peers, of_parts=True),
            self.ignored()])

    def index_peer(self):
        address, asn = self.chance.choice(self.sessions)
        wide = asn > 65535 or self.often(0.5)
        kind = self.chance.choice((0, 0, 0, 0x80, 0xFC)) | (len(address) == 16) | wide << 1
        return [number(1, kind), self.chance.randbytes(4), address, number(4 if wide else 2, asn)]

    def rib(self, subtype):
        return self.record(TABLE_DUMP_V2, subtype, [
            self.chance.randbytes(4), self.prefix(4 if subtype == 2 else 16),
            Counted(2, self.some(3, self.entry), of_parts=True), self.ignored()])

    def entry(self):
        beyond = not self.peer_count or self.often(0.05)
        index = self.chance.randrange(self.peer_count + 1 if beyond else self.peer_count)
        return [number(2, index), self.chance.randbytes(4), self.attributes(4, in_entry=True)]

    def old_entry(self, subtype):
        size = 4 if subtype == 1 else 16
        peer, asn = self.chance.choice([it for it in self.sessions if len(it[0]) == size])
        address, bits = self.net(size)
        return self.record(TABLE_DUMP, subtype, [
            self.chance.randbytes(4), address, number(1, bits), self.chance.randbytes(5), peer,
            number(2, asn % 65536), self.attributes(2, in_entry=True), self.ignored()])

    def session(self, width):
        address, asn = self.chance.choice(self.sessions)
        return [number(width, asn if width == 4 or asn < 65536 else reading.AS_TRANS), self.as_octets(width),
                self.chance.randbytes(2), number(2, 1 if len(address) == 4 else 2), address,
                self.address(len(address))]

    def state_change(self, kind, subtype):
        states = [number(2, self.chance.choice((6, 6, 6, 1, 2, 3, 4, 5, 0, 0xFFFF))) for _ in range(2)]
        return self.record(kind, subtype, [*self.session(4 if subtype == 5 else 2), *states, self.ignored()])

    def message(self, kind, subtype):
        width = 4 if subtype in (4, 7, 9, 11) else 2
        name = self.chance.choice((1, 3, 4, 5, 0, 255)) if self.often(0.12) else UPDATE
        body = self.update(width) if name == UPDATE else [self.random_octets(20)]
        marker = self.chance.randbytes(16) if self.often(0.1) else b'\xFF' * 16
        return self.record(kind, subtype, [
            *self.session(width), marker, Counted(2, [number(1, name), *body], more=18)])

    def update(self, width):
        return [Counted(2, self.some(2, lambda: self.prefix(4))), self.attributes(width, in_entry=False),
                self.some(3, lambda: self.prefix(4))]

    def unread(self):
        """A record of a kind that isn't read."""
        kind, subtypes = self.chance.choice(self.UNREAD)
        subtype = self.chance.choice(subtypes)
        if kind in (BGP4MP, BGP4MP_ET) and self.often(0.5):
            return self.message(kind, subtype)
        return self.record(kind, subtype, [self.random_octets(40)])

    def any_record(self):
        kind = self.chance.choice((BGP4MP, BGP4MP_ET))
        makers = (
            (3, self.index, ()), (12, self.rib, (2,)), (12, self.rib, (4,)), (8, self.old_entry, (1,)),
            (8, self.old_entry, (2,)), (4, self.state_change, (kind, 0)), (4, self.state_change, (kind, 5)),
            (24, self.message, (kind, 1)), (16, self.message, (kind, 4)), (4, self.unread, ()),
        )
        [(_, make, words)] = self.chance.choices(makers, [share for share, _, _ in makers])
        return make(*words)


class Damage:
    """Damages records by their parts, and octets."""

    TELLING = (0, 1, 2, 3, 4, 5, 6, 8, 14, 15, 16, 17, 18, 32, 33, 64, 128, 129, 255)

    def __init__(self, chance):
        self.chance = chance

    def in_parts(self, record, donor):
        """Changes a part of a record's body in place, or a number and the parts behind it."""
        filled = [parts for parts in lists_in(record[-1]) if parts]
        counted = [part for parts in filled for part in parts if isinstance(part, Counted)]
        if counted and self.chance.random() < 0.3:
            change = self.chance.choice((self.miscount, self.shorten))
            change(self.chance.choice(counted))
        elif filled:
            parts = self.chance.choice(filled)
            change = self.chance.choice((self.alter, self.alter, self.alter, self.drop, self.repeat, self.exchange,
                                         self.insert, self.splice))
            change(parts, self.chance.randrange(len(parts)), donor)

    def miscount(self, counted):
        counted.wrong += self.chance.choice((-2, -1, -1, 1, 1, 2, self.chance.randrange(256)))

    def shorten(self, counted):
        octets = octets_of(counted.parts)
        counted.parts = [octets[:self.chance.randint(0, len(octets))]]

    def alter(self, parts, at, donor):
        parts[at] = self.with_octet(octets_of(parts[at]))

    def drop(self, parts, at, donor):
        del parts[at]

    def repeat(self, parts, at, donor):
        parts.insert(at, parts[at])

    def exchange(self, parts, at, donor):
        other = self.chance.randrange(len(parts))
        parts[at], parts[other] = parts[other], parts[at]

    def insert(self, parts, at, donor):
        parts.insert(at, self.chance.randbytes(self.chance.randint(1, 4)))

    def splice(self, parts, at, donor):
        """Puts a part of another record in its place."""
        others = [part for parts in lists_in(donor[-1]) for part in parts]
        if others:
            parts[at] = octets_of(self.chance.choice(others))

    def with_octet(self, octets):
        """The octets with another one at some place."""
        if not octets:
            return octets
        at = self.chance.randrange(len(octets))
        old = octets[at]
        new = self.chance.choice((0, 255, self.chance.randrange(256), (old + 1) % 256, (old - 1) % 256,
                                  old ^ 1 << self.chance.randrange(8), self.chance.choice(self.TELLING)))
        return octets[:at] + bytes([new]) + octets[at + 1:]

    def in_octets(self, octets, donor):
        """The octets with one changed, some cut out, repeated, put in or taken from others, or without their end."""
        start, end = sorted(self.chance.randrange(len(octets) + 1) for _ in range(2))
        end = min(end, start + self.chance.choice((1, 1, 2, 4, 12, 40)))
        place = self.chance.randrange(len(octets) + 1)
        change = self.chance.choice(('alter', 'alter', 'cut', 'repeat', 'insert', 'splice', 'end'))
        match change:
            case 'alter':
                return self.with_octet(octets)
            case 'cut':
                return octets[:start] + octets[end:]
            case 'repeat':
                return octets[:place] + octets[start:end] + octets[place:]
            case 'insert':
                return octets[:place] + self.chance.randbytes(end - start) + octets[place:]
            case 'splice':
                return octets[:start] + donor[start:end] + octets[end:]
            case 'end':
                return octets[:start]

    def in_header(self, octets):
        """The record with another length in its header, or of another type and subtype."""
        length = int.from_bytes(octets[8:12], 'big')
        if self.chance.random() < 0.5:
            length = self.chance.choice((0, 1, length + 1, max(length, 1) - 1, length + 256, 16_777_216, 16_777_217,
                                         0xFFFFFFFF, self.chance.randrange(1 << 32)))
            return octets[:8] + number(4, length) + octets[12:]
        kind = self.chance.choice((TABLE_DUMP, TABLE_DUMP_V2, BGP4MP, BGP4MP_ET, 0, 11, 14, 0x1000))
        return octets[:4] + number(2, kind) + number(2, self.chance.randrange(9)) + octets[8:]

    def in_body(self, octets, donor):
        """The record with its body damaged, and the length in its header right."""
        body = self.in_octets(octets[12:], donor[12:])
        return octets[:8] + number(4, len(body)) + body
