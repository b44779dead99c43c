#!/usr/bin/env python3
"""Writes one made-up hour of routing as an MRT file (RFC 6396), always the same octets.

    examples/incident.py FILE

First the table at 12:00, as a collector (AS 64499) has it from four peers; then what they send until 13:00:
some news of a normal day, a hijack, a route leak, an outage and a flapping prefix. All prefixes, addresses
and AS numbers are those reserved for documentation (RFC 5737, RFC 3849, RFC 5398).

The providers 64496 (west), 64497 (north) and 65536 (east) exchange routes with one another and have customers:

    64496: 64500, 64501     64497: 64501, 64502     65536: 64503, 65551     64500: 64504
"""
import sys
from collections import namedtuple
from ipaddress import ip_address, ip_network
from struct import pack

START = 1780315200  # 2026-06-01 12:00:00 UTC, in seconds since 1970
COLLECTOR = 64499

# A session with the collector, and the next hop of the IPv6 routes that are sent in it.
Peer = namedtuple('Peer', 'address number next_hop6')
WEST = Peer('192.0.2.1', 64496, None)
NORTH = Peer('192.0.2.2', 64497, None)
EAST = Peer('192.0.2.3', 65536, '2001:db8:ffff::3')  # one session for both families
NORTH6 = Peer('2001:db8:ffff::2', 64497, '2001:db8:ffff::2')
PEERS = [WEST, NORTH, EAST, NORTH6]


# Octets.

def seconds(clock):
    hours, minutes, rest = map(int, clock.split(':'))
    return START + (hours - 12) * 3600 + minutes * 60 + rest


def is_ipv6(text):
    return ':' in text


def address(text):
    return ip_address(text).packed


def prefix(text):
    """The length, and as many octets as hold the bits (RFC 4271, section 4.3)."""
    network = ip_network(text)
    return bytes([network.prefixlen]) + network.network_address.packed[:(network.prefixlen + 7) // 8]


def prefixes(texts):
    return b''.join(map(prefix, texts))


def record(time, kind, subtype, body):
    """RFC 6396, section 2."""
    return pack('>IHHI', time, kind, subtype, len(body)) + body


def attribute(flags, kind, value):
    """RFC 4271, section 4.3. The flags: 0x40 is well known, 0x80 optional, 0xC0 optional and passed on."""
    return bytes([flags, kind, len(value)]) + value


def communities(path):
    """64496 and 64497 tag their routes: :100 for those of customers, :200 for those of other providers."""
    number, neighbour = map(int, path.split()[:2])
    if number > 0xFFFF:
        return b''
    is_provider = neighbour in (WEST.number, NORTH.number, EAST.number)
    return attribute(0xC0, 8, pack('>HH', number, 200 if is_provider else 100))


def next_hop(peer):
    return attribute(0x40, 3, address(peer.address))


def attributes(path, reach):
    """ORIGIN (IGP), AS_PATH as one sequence, NEXT_HOP or MP_REACH_NLRI, COMMUNITIES."""
    numbers = [int(word) for word in path.split()]
    sequence = pack('>BB%dI' % len(numbers), 2, len(numbers), *numbers)
    return attribute(0x40, 1, b'\0') + attribute(0x40, 2, sequence) + reach + communities(path)


# The table (RFC 6396, section 4.3).

def peer_index():
    body = address('192.0.2.254') + pack('>HH', 0, len(PEERS))
    for peer in PEERS:
        bgp_id = address('192.0.2.2' if peer is NORTH6 else peer.address)
        body += bytes([2 | is_ipv6(peer.address)]) + bgp_id + address(peer.address) + pack('>I', peer.number)
    return record(START, 13, 1, body)


def table_entries(sequence, text, paths):
    """The routes to one prefix, each an hour older than that of the prefix before."""
    body = pack('>I', sequence) + prefix(text) + pack('>H', len(paths))
    for peer, path in paths.items():
        reach = attribute(0x80, 14, b'\x10' + address(peer.next_hop6)) if is_ipv6(text) else next_hop(peer)
        about = attributes(path, reach)
        body += pack('>HIH', PEERS.index(peer), START - 3600 * (sequence + 1), len(about)) + about
    return record(START, 13, 4 if is_ipv6(text) else 2, body)


# What happens in sessions (RFC 6396, section 4.4). Each answers the subtype and the body of a record.

def session(peer):
    family, local = (2, '2001:db8:ffff::fe') if is_ipv6(peer.address) else (1, '192.0.2.254')
    return pack('>IIHH', peer.number, COLLECTOR, 0, family) + address(peer.address) + address(local)


def state_change(peer, old, new):
    """1 Idle, 3 Active, 4 OpenSent, 5 OpenConfirm, 6 Established."""
    return 5, session(peer) + pack('>HH', old, new)


def update(peer, withdrawn, about, announced):
    body = pack('>H', len(withdrawn)) + withdrawn + pack('>H', len(about)) + about + announced
    return 4, session(peer) + b'\xff' * 16 + pack('>HB', 19 + len(body), 2) + body


def announce(peer, path, *texts):
    if not is_ipv6(texts[0]):
        return update(peer, b'', attributes(path, next_hop(peer)), prefixes(texts))
    reach = pack('>HBB', 2, 1, 16) + address(peer.next_hop6) + b'\0' + prefixes(texts)
    return update(peer, b'', attributes(path, attribute(0x80, 14, reach)), b'')


def withdraw(peer, *texts):
    if not is_ipv6(texts[0]):
        return update(peer, prefixes(texts), b'', b'')
    return update(peer, b'', attribute(0x80, 15, pack('>HB', 2, 1) + prefixes(texts)), b'')


# The story.

TABLE = {
    '198.51.100.0/24': {WEST: '64496 64500', NORTH: '64497 64496 64500', EAST: '65536 64496 64500'},
    '203.0.113.0/26': {WEST: '64496 64501', NORTH: '64497 64501', EAST: '65536 64497 64501'},
    '203.0.113.64/26': {WEST: '64496 64497 64502', NORTH: '64497 64502', EAST: '65536 64497 64502'},
    '203.0.113.128/26': {WEST: '64496 65536 64503', NORTH: '64497 65536 64503', EAST: '65536 64503'},
    '203.0.113.192/26': {WEST: '64496 64500 64504', NORTH: '64497 64496 64500 64504',
                         EAST: '65536 64496 64500 64504'},
    '2001:db8:100::/48': {EAST: '65536 64496 64500', NORTH6: '64497 64496 64500'},
    '2001:db8:200::/48': {EAST: '65536 64497 64502', NORTH6: '64497 64502'},
    '2001:db8:300::/48': {EAST: '65536 64503', NORTH6: '64497 65536 64503'},
}


FLAPPING = '203.0.113.128/26'


def flapping():
    """64503 goes away and comes back every forty seconds; north waits from the second time on."""
    views = [(EAST, '65536 64503'), (WEST, '64496 65536 64503'), (NORTH, '64497 65536 64503')]
    for turn in range(8):
        start = 45 * 60 + turn * 40
        for delay, (peer, _) in enumerate(views[:3 if turn < 2 else 2]):
            yield '12:%02d:%02d' % divmod(start + delay, 60), withdraw, peer, FLAPPING
        for delay, (peer, path) in enumerate(views[:3 if turn < 1 else 2]):
            yield '12:%02d:%02d' % divmod(start + 15 + delay, 60), announce, peer, path, FLAPPING


STORY = [
    # A normal day: 64502 announces a part of its network too, 64503 a new one; 64504 makes its paths longer.
    ('12:01:05', announce, NORTH, '64497 64502', '203.0.113.96/27'),
    ('12:01:06', announce, WEST, '64496 64497 64502', '203.0.113.96/27'),
    ('12:01:06', announce, EAST, '65536 64497 64502', '203.0.113.96/27'),
    ('12:02:30', announce, EAST, '65536 64503', '2001:db8:301::/48'),
    ('12:02:31', announce, NORTH6, '64497 65536 64503', '2001:db8:301::/48'),
    ('12:04:10', announce, WEST, '64496 64500 64504 64504', '203.0.113.192/26'),
    ('12:04:11', announce, NORTH, '64497 64496 64500 64504 64504', '203.0.113.192/26'),
    ('12:04:11', announce, EAST, '65536 64496 64500 64504 64504', '203.0.113.192/26'),

    # The hijack: 65551 announces the prefix of 64500, and only east prefers that, as a route of its customer.
    ('12:10:04', announce, EAST, '65536 65551', '198.51.100.0/24'),
    # So 65551 announces half of it, which nobody else does, and all have the route.
    ('12:12:30', announce, EAST, '65536 65551', '198.51.100.0/25'),
    ('12:12:31', announce, WEST, '64496 65536 65551', '198.51.100.0/25'),
    ('12:12:32', announce, NORTH, '64497 65536 65551', '198.51.100.0/25'),
    # East no longer takes either.
    ('12:17:40', withdraw, EAST, '198.51.100.0/25'),
    ('12:17:40', announce, EAST, '65536 64496 64500', '198.51.100.0/24'),
    ('12:17:41', withdraw, WEST, '198.51.100.0/25'),
    ('12:17:42', withdraw, NORTH, '198.51.100.0/25'),

    # The leak: 64501 sends the routes of its provider 64496 to its other provider, 64497, which prefers them.
    ('12:22:15', announce, NORTH, '64497 64501 64496 64500', '198.51.100.0/24'),
    ('12:22:15', announce, NORTH, '64497 64501 64496 64500 64504 64504', '203.0.113.192/26'),
    ('12:22:15', announce, NORTH, '64497 64501 64496 65536 64503', '203.0.113.128/26'),
    ('12:22:16', announce, NORTH6, '64497 64501 64496 64500', '2001:db8:100::/48'),
    ('12:22:16', announce, NORTH6, '64497 64501 64496 65536 64503', '2001:db8:300::/48', '2001:db8:301::/48'),
    # 64501 has mended its filter.
    ('12:28:50', announce, NORTH, '64497 64496 64500', '198.51.100.0/24'),
    ('12:28:50', announce, NORTH, '64497 64496 64500 64504 64504', '203.0.113.192/26'),
    ('12:28:50', announce, NORTH, '64497 65536 64503', '203.0.113.128/26'),
    ('12:28:51', announce, NORTH6, '64497 64496 64500', '2001:db8:100::/48'),
    ('12:28:51', announce, NORTH6, '64497 65536 64503', '2001:db8:300::/48', '2001:db8:301::/48'),

    # The outage: north is gone, with both sessions. What only it reaches is withdrawn, the rest goes round it.
    ('12:33:00', state_change, NORTH, 6, 1),
    ('12:33:02', state_change, NORTH6, 6, 1),
    ('12:33:03', withdraw, WEST, '203.0.113.64/26', '203.0.113.96/27'),
    ('12:33:03', withdraw, EAST, '203.0.113.64/26', '203.0.113.96/27'),
    ('12:33:03', withdraw, EAST, '2001:db8:200::/48'),
    ('12:33:04', announce, EAST, '65536 64496 64501', '203.0.113.0/26'),
    ('12:33:30', state_change, NORTH, 1, 3),
    ('12:33:32', state_change, NORTH6, 1, 3),
    # It is back. One route of IPv6 isn't: north no longer has it.
    ('12:40:10', state_change, NORTH, 3, 4),
    ('12:40:10', state_change, NORTH, 4, 5),
    ('12:40:11', state_change, NORTH, 5, 6),
    ('12:40:12', announce, NORTH, '64497 64502', '203.0.113.64/26', '203.0.113.96/27'),
    ('12:40:12', announce, NORTH, '64497 64501', '203.0.113.0/26'),
    ('12:40:12', announce, NORTH, '64497 64496 64500', '198.51.100.0/24'),
    ('12:40:12', announce, NORTH, '64497 64496 64500 64504 64504', '203.0.113.192/26'),
    ('12:40:12', announce, NORTH, '64497 65536 64503', '203.0.113.128/26'),
    ('12:40:14', state_change, NORTH6, 3, 4),
    ('12:40:14', state_change, NORTH6, 4, 5),
    ('12:40:15', state_change, NORTH6, 5, 6),
    ('12:40:16', announce, NORTH6, '64497 64502', '2001:db8:200::/48'),
    ('12:40:16', announce, NORTH6, '64497 65536 64503', '2001:db8:300::/48', '2001:db8:301::/48'),
    ('12:40:18', announce, WEST, '64496 64497 64502', '203.0.113.64/26', '203.0.113.96/27'),
    ('12:40:18', announce, EAST, '65536 64497 64502', '203.0.113.64/26', '203.0.113.96/27'),
    ('12:40:18', announce, EAST, '65536 64497 64502', '2001:db8:200::/48'),
    ('12:40:19', announce, EAST, '65536 64497 64501', '203.0.113.0/26'),

    # A flapping prefix, from 12:45:00 on.
    *flapping(),
    # North has it again.
    ('12:56:00', announce, NORTH, '64497 65536 64503', FLAPPING),
]


def main():
    if len(sys.argv) != 2:
        sys.exit(__doc__)
    if sys.argv[1] in ('-h', '--help'):
        print(__doc__)
        return
    with open(sys.argv[1], 'wb') as file:
        file.write(peer_index())
        for sequence, (text, paths) in enumerate(TABLE.items()):
            file.write(table_entries(sequence, text, paths))
        for clock, action, *rest in STORY:
            file.write(record(seconds(clock), 16, *action(*rest)))


main()
