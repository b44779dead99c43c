"""Writes the lines and reports of what was read from an MRT file, and the replies of a player over it.

The texts are those of the manual page, and of RFC 5952 for IPv6 addresses.
"""
import struct
from functools import lru_cache
from itertools import takewhile

from reading import AS_CONFED_SEQUENCE, AS_CONFED_SET, AS_SEQUENCE, AS_SET, ESTABLISHED, WELL_KNOWN
from reading import Announce, State, Withdraw

# The brackets around the numbers of a segment, and what stands between them.
SEGMENT_FORMS = {AS_SEQUENCE: ('%s', ' '), AS_SET: ('{%s}', ','), AS_CONFED_SEQUENCE: ('(%s)', ' '),
                 AS_CONFED_SET: ('[%s]', ',')}


# Fields.

def zeros_at(groups, at):
    """How many of the groups from there on are 0."""
    return len(list(takewhile(lambda group: group == 0, groups[at:])))


@lru_cache(maxsize=1 << 14)
def address_text(address):
    """The text of an address (RFC 5952, section 4), of IPv6 never with a dotted end."""
    if len(address) == 4:
        return '.'.join(map(str, address))
    groups = struct.unpack('>8H', address)
    texts = ['%x' % group for group in groups]
    start = max(range(8), key=lambda at: zeros_at(groups, at))
    count = zeros_at(groups, start)
    if count < 2:
        return ':'.join(texts)
    return ':'.join(texts[:start]) + '::' + ':'.join(texts[start + count:])


def prefix_text(prefix):
    address, bits = prefix
    return '%s/%d' % (address_text(address), bits)


def segment_text(kind, numbers):
    around, between = SEGMENT_FORMS[kind]
    return around % between.join(map(str, numbers))


def community_text(community):
    return WELL_KNOWN.get(community) or '%d:%d' % divmod(community, 1 << 16)


def aggregator_text(aggregator):
    number, address = aggregator
    return '%d %s' % (number, address_text(address))


@lru_cache(maxsize=16)
def attributes_text(it):
    """The fields behind the prefix."""
    return '%s|%s|%s|%d|%d|%s|%s|%s|' % (
        ' '.join(segment_text(*segment) for segment in it.path),
        it.origin,
        address_text(it.next_hop) if it.next_hop else '',
        it.local_pref,
        it.med,
        ' '.join(map(community_text, it.communities)),
        'AG' if it.atomic else 'NAG',
        aggregator_text(it.aggregator) if it.aggregator else '',
    )


# Lines.

def peer_text(peer):
    return '%s|%d' % (address_text(peer.address), peer.number)


def route_text(peer, prefix, route):
    return '%s|%s|%s' % (peer_text(peer), prefix_text(prefix), attributes_text(route.attributes))


def entry_line(tag, peer, prefix, route):
    return '%s|%d|B|%s' % (tag, route.time, route_text(peer, prefix, route))


def line_of(event, item):
    match item:
        case Announce(peer, prefix, route) if event.tag.startswith('TABLE_DUMP'):
            return entry_line(event.tag, peer, prefix, route)
        case Announce(peer, prefix, route):
            what = 'A|' + route_text(peer, prefix, route)
        case Withdraw(peer, prefix):
            what = 'W|%s|%s' % (peer_text(peer), prefix_text(prefix))
        case State(peer, old, new):
            what = 'STATE|%s|%d|%d' % (peer_text(peer), old, new)
    return '%s|%s|%s' % (event.tag, event.time, what)


def lines_of(event):
    return [line_of(event, item) for item in event.items]


def report_of(result):
    return 'bgpdump: record %d, byte %d: %s' % (result.number, result.offset, result.fault.text)


# The player.

def tables_after(events):
    """The routes of each peer by their prefixes behind these events."""
    tables = {}
    for event in events:
        for item in event.items:
            take_in(tables, item)
    return {peer: routes for peer, routes in tables.items() if routes}


def take_in(tables, item):
    match item:
        case Announce(peer, prefix, route):
            tables.setdefault(peer, {})[prefix] = route
        case Withdraw(peer, prefix):
            tables.get(peer, {}).pop(prefix, None)
        case State(peer, old, new) if old == ESTABLISHED and new != ESTABLISHED:
            tables.pop(peer, None)


def by_address(pair):
    """The order of peers, and of prefixes: IPv4 first."""
    address, number = pair
    return len(address), address, number


def peers_reply(tables):
    lines = ['PEER|%s|%d' % (peer_text(peer), len(tables[peer])) for peer in sorted(tables, key=by_address)]
    return lines or ['none']


def table_reply(tables, peer):
    routes = tables.get(peer, {})
    lines = [entry_line('RIB', peer, prefix, routes[prefix]) for prefix in sorted(routes, key=by_address)]
    return lines + ['routes %d' % len(routes)]
