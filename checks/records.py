"""Records of MRT files and their parts, with the numbers that a caller names (RFC 6396, 4271, 4760)."""
import struct

from reading import AS_PATH, BGP4MP, COMMUNITIES, MP_REACH_NLRI, MP_UNREACH_NLRI, NEXT_HOP, ORIGIN, TABLE_DUMP
from reading import TABLE_DUMP_V2, UPDATE

SECONDS = 1_700_000_000
PEER = 0xC0000201
NEIGHBOUR = 64496


def record(kind, subtype, body):
    return struct.pack('>IHHI', SECONDS, kind, subtype, len(body)) + body


# Attributes.

def attribute(kind, value):
    if len(value) > 255:
        return struct.pack('>BBH', 0x50, kind, len(value)) + value
    return struct.pack('>BBB', 0x40, kind, len(value)) + value


def segment(width, *numbers):
    """A sequence of numbers of so many octets."""
    return struct.pack('>BB%d%s' % (len(numbers), 'H' if width == 2 else 'I'), 2, len(numbers), *numbers)


def route(path, *others):
    """An origin, a path of these segments, a next hop, and other attributes."""
    return attribute(ORIGIN, b'\0') + attribute(AS_PATH, path) + attribute(NEXT_HOP, bytes([192, 0, 2, 1])) + \
        b''.join(others)


def communities(*numbers):
    """Those of the neighbour, with these numbers."""
    return attribute(COMMUNITIES, b''.join(struct.pack('>HH', NEIGHBOUR, number) for number in numbers))


def reach(prefixes):
    """The announcement of IPv6 prefixes."""
    hop = bytes.fromhex('20010DB8') + bytes(11) + b'\1'
    return attribute(MP_REACH_NLRI, struct.pack('>HBB', 2, 1, len(hop)) + hop + b'\0' + prefixes)


def table_hop(number):
    """The next hop of a table's entry of IPv6, which stands alone (RFC 6396, section 4.3.4)."""
    return attribute(MP_REACH_NLRI, bytes([16]) + bytes.fromhex('20010DB8') + number.to_bytes(12, 'big'))


def unreach(prefixes):
    """The withdrawal of IPv6 prefixes."""
    return attribute(MP_UNREACH_NLRI, struct.pack('>HB', 2, 1) + prefixes)


# Tables.

def index(peers):
    """An index of so many peers."""
    return record(TABLE_DUMP_V2, 1, struct.pack('>IHH', 0, 0, peers) + b''.join(
        struct.pack('>BIIH', 0, peer, PEER + peer, NEIGHBOUR) for peer in range(peers)))


def entry(peer, attributes):
    return struct.pack('>HIH', peer, SECONDS, len(attributes)) + attributes


def table(number, prefix, entries, subtype=2):
    """A record of a table of IPv4, or of IPv6."""
    return record(TABLE_DUMP_V2, subtype, struct.pack('>I', number) + prefix + struct.pack('>H', len(entries)) +
                  b''.join(entries))


def wide_table(number, prefix, entries):
    return table(number, prefix, entries, subtype=4)


def old_entry(number, peer, attributes):
    """A record of an old table, of a prefix of 24 bits."""
    return record(TABLE_DUMP, 1, struct.pack('>HHIBBIIHH', 0, number & 0xFFFF, 0x0A000000 + (number << 8), 24, 1,
                                             SECONDS, PEER + peer, NEIGHBOUR, len(attributes)) + attributes)


# Messages.

# The subtype of records with AS numbers of so many octets, and the form of their sessions.
SESSIONS = {2: (1, '>HHHHII'), 4: (4, '>IIHHII')}


def session(width, peer=0):
    """That with the peer of this number."""
    return struct.pack(SESSIONS[width][1], NEIGHBOUR, 64497, 0, 1, PEER + peer, 0xC00002FE)


def message(withdrawn, attributes, announced, width=4, peer=0):
    """An UPDATE."""
    body = struct.pack('>H', len(withdrawn)) + withdrawn + struct.pack('>H', len(attributes)) + attributes + announced
    return record(BGP4MP, SESSIONS[width][0],
                  session(width, peer) + b'\xff' * 16 + struct.pack('>HB', 19 + len(body), UPDATE) + body)


def loss(peer=0):
    """The loss of the session with the peer of this number."""
    return record(BGP4MP, 5, session(4, peer) + struct.pack('>HH', 6, 1))


def prefix(bits, number):
    """A prefix of IPv4 of 8 to 32 bits, which begins with the bits of this number."""
    return bytes([bits]) + (number << -bits % 8).to_bytes((bits + 7) // 8, 'big')


def net(number):
    """The prefix of 24 bits of this number, from 10.0.0.0/24 on."""
    return prefix(24, (10 << 16) + number)


def host(number):
    """The prefix of 32 bits of this number, from 10.0.0.0/32 on."""
    return prefix(32, (10 << 24) + number)
