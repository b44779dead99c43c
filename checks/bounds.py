"""Which bounds of the code are met by which shape: of a file (shapes.py), or of what is held behind something large
(held.py).

A bound is a constant whose comment tells what happens with one more, or one above. An input may be chosen to lie
there, so each stands here with a shape that does, or with the reason why there is none.
"""
import re
from pathlib import Path

from held import CASES
from shapes import SHAPES

TOP = Path(__file__).resolve().parent.parent

# Crates that no program of a user's is made of.
NOT_SHIPPED = ('rows', 'row_parts', 'row_values', 'row_stores', 'value_tests', 'library_tests', 'play_tests',
               'test_devices', 'store_bench', 'workloads', 'workload_inputs')

# The bounds by file, and the shapes that meet each.
MET = {
    'bgp_paths/src/as_numbers.rt': {'MOST_SPARE': ['spare numbers']},
    'bgp_paths/src/segments.rt': {'MOST_SPARE': ['spare segments']},
    'bgp_wire/src/attrs.rt': {'MOST_SPARE': ['spare communities']},
    'bgpdump_lines/src/cached_line.rt': {'LONGEST_TAIL': ['records of one route of many communities']},
    'bgpdump_lines/src/line_cache.rt': {
        'MOST_LINES': ['records of 1,000 entries and of one by turns'],
        'MOST_SEGMENTS': ['records of paths of three segments'],
    },
    'bgpdump_lines/src/write.rt': {'LONG_TEXT': ['lines of 210,000 octets']},
    'known_routes/src/ordered_routes.rt': {'LONGEST_RUN': ['routes of one hash, played']},
    'known_routes/src/slot.rt': {'SLOTS_PER_BUCKET': ['routes of one hash, played']},
    'known_routes/src/slots.rt': {
        'MIN_SLOTS': ['places at first'],
        'MOST_TIMES': ['places of known routes'],
        'CROWDED_SHARE': ['routes of one hash, played'],
        'OVERWRITTEN_SHARE': ['routes of one hash, played'],
    },
    'known_routes/src/routes.rt': {
        'MOST_NUMBERS': ['long routes that are equal, played'],
        'LOOKED_FOR_OWNERS': ['long routes that are equal, played'],
        'LASTS': ['places at first'],
        'FEW_OWNERS': ['garbage of known routes, played'],
        'RELEASED_SHARE': ['routes that nobody else holds'],
        'RELEASED_ROOM': ['routes that nobody else holds'],
    },
    'known_routes/src/spare_room.rt': {
        'MOST_SPARE': ['short routes behind room, played'],
        'SPARE_SHARE': ['short routes behind room, played'],
    },
    'mrt_frames/src/frames.rt': {'MOST_KEPT': ['the body of a record']},
    'mrt_wire/src/peers.rt': {'PEER_SLOTS': ['places for peers', 'paths of 1,024 peers climb, 250 octets']},
    'mrt_wire/src/pool.rt': {'MOST_ITEMS': ['items']},
    'mrt_wire/src/route_cache.rt': {
        'LONGEST_CACHED': ['attributes of places', 'paths of 256 peers climb, 250 octets'],
        'MOST_SEGMENTS': ['paths of many segments'],
        'MOST_SPARES': ['entries that differ in the last community'],
    },
    'mrt_wire/src/route_pool.rt': {
        'FIRST_ROUTES': ['routes of a table'],
        'LONGEST_FIRST': ['routes of a table', 'paths of 256 peers climb, 1,024 octets'],
        'MOST_ROOM': ['routes of a table', 'records of many segments', 'garbage of long records, played'],
        'LOWERING_RATE': ['paths of a record climb, 1,024 octets'],
    },
    'mrt_wire/src/session.rt': {'LONGEST_KEPT': ['the parts of an UPDATE', 'long messages and entries by turns']},
    'octet_text/src/buffer.rt': {'MOST_KEPT': ['the text of a line']},
    'prefix_store/src/prefetch_batch.rt': {'PREFETCH_BATCH_LEN': ['hosts below keys of each length, back and forth']},
    'rib_player/src/key_counts.rt': {'FEW': ['peers announce nine prefixes again, played']},
    'rib_player/src/prefetching.rt': {
        'ENTRIES_AT_ONCE': ['hosts below keys of each length, back and forth'],
        'STEPS_TOGETHER': ['prefixes of 80 bits share 48, back and forth'],
        'LEAST_KEYS': ['prefixes of 80 bits share 48, back and forth'],
    },
    'rib_player/src/spare_capacity.rt': {
        'MOST_TIMES': ['room for steps', 'room for peers', 'marks of peers'],
        'LEAST_ROOM': ['room for steps', 'room for peers', 'marks of peers'],
    },
    'rib_player/src/steps.rt': {
        'MANY': ['a session is lost, and comes again'],
        'FEW': ['messages are withdrawn'],
    },
    'rib_player/src/stores.rt': {'PLACES': ['places at first', 'peers of an address each, played']},
    'rib_player/src/table.rt': {
        'LEAST_PEERS': ['peers without routes, asked for'],
        'FEW_OF': ['peers without routes, asked for'],
    },
    'rib_store/src/tree/descents.rt': {
        'MOST_BITS': ['hosts below keys of each length, played'],
        'MOST_NODES': ['hosts below keys of each length, played'],
    },
}

# The others, and why no shape meets them.
NOT_MET = {
    'bgp_paths/src/as_numbers.rt': {
        'MOST_IN_PLACE': 'more take a block of their size', 'NUMBERS_OCTETS': 'the check compares it',
    },
    'bgp_wire/src/framing.rt': {'KINDS': 'attributes of no other type are read'},
    'bgpdump_tool/src/execution/queries.rt': {'MANY': 'lines are asked for so many at a time, whatever there are'},
    'known_routes/src/ordered_routes.rt': {
        'MOST_ORDERED': 'four million routes of one hash take more memory than a check has',
        'MOST_TIMES': 'a list of what went is shorter than the routes that made it',
    },
    'known_routes/src/slot.rt': {
        'BEFORE_BUCKETS': 'the layout of a block', 'SECOND_BUCKET': 'a factor', 'HASH_BITS': 'the width of a hash',
        'FREE': 'stands for no route',
    },
    'known_routes/src/slots.rt': {
        'MAX_SLOTS': 'so many routes take more memory than a check has', 'IN_OVERFLOW': 'no number is above it',
    },
    'known_routes/src/route_hash.rt': {
        'MULTIPLIER': 'a factor', 'NO_ORIGIN': 'stands for no origin',
        'MARK_BITS': 'the width of a mark', 'COMMUNITIES': 'a mark', 'LOWEST_BITS': 'the width of a hash',
    },
    'known_routes/src/route_order.rt': {'NO_ORIGIN': 'stands for no origin'},
    'known_routes/src/routes.rt': {'LOWEST_BITS': 'the width of a hash'},
    'mrt_frames/src/buffer.rt': {'FIRST_GROWTH': 'the buffer grows as it is filled'},
    'mrt_frames/src/frames.rt': {'PIECE': 'what is passed over is read in pieces, whatever it is'},
    'mrt_frames/src/header.rt': {'LONGEST_BODY': 'the input ends there'},
    'bgpdump_lines/src/dump.rt': {'INPUT_LIMIT': 'no file of a check has 2^40 octets'},
    'mrt_wire/src/pool.rt': {
        'MOST_OCTETS': 'the build compares it', 'SLOTS_OCTETS': 'the build sums it up',
        'SPARES_OCTETS': 'the build sums it up', 'ROUTES_OCTETS': 'the build sums it up',
    },
    'mrt_wire/src/route_cache.rt': {'LARGEST_SLOT': 'the build sums it up'},
    'mrt_wire/src/route_pool.rt': {
        'MOST_ROUTES': 'no record has so many entries', 'LARGEST_FIRST': 'the build sums it up',
        'ELEMENT_OCTETS': 'the build sums it up',
    },
    'prefix_store/src/store.rt': {'GREATEST_COUNT': 'no memory has so many keys'},
    'octet_text/src/buffer.rt': {'LEAST_ROOM': 'the text grows as it is filled'},
    'rib_player/src/claims.rt': {
        'ADDRESSES': 'no address has a number above it', 'COUNTS_OCTETS': 'the check compares it',
    },
    'rib_player/src/entry.rt': {'ENTRY_OCTETS': 'the check compares it'},
    'rib_player/src/numbered_peer.rt': {'NO_NUMBER': 'no number is above it'},
}


# What the comment of a bound says.
BOUND = re.compile(r'\b(one|octet|bit) (more|above|less)\b|\bof more\b|\babove it\b|'
                   r'\b(largest|further|longer|larger)\b', re.IGNORECASE)


def documented_constants(text):
    """The constants that are numbers, and the comment of each."""
    comment = []
    for line in map(str.strip, text.splitlines()):
        found = re.match(r'(?:pub(?:\(crate\))? )?const ([A-Z0-9_]+): (?:usize|u8|u16|u32|u64) =', line)
        if line.startswith('///'):
            comment.append(line[3:].strip())
            continue
        if found:
            yield found[1], ' '.join(comment)
        comment = []


def files_of_code():
    for path in sorted(TOP.glob('crates/*/src/**/*.rt')):
        name = path.relative_to(TOP / 'crates').as_posix()
        if name.split('/')[0] not in NOT_SHIPPED:
            yield name, path.read_text()


def faults_of_bounds():
    """Bounds that no shape meets and that aren't named here, and what is named and isn't there."""
    names = {it.name for it in (*SHAPES, *CASES)}
    found = {name: dict(documented_constants(text)) for name, text in files_of_code()}
    for name, constants in found.items():
        for constant, comment in constants.items():
            known = constant in MET.get(name, ()) or constant in NOT_MET.get(name, ())
            if BOUND.search(comment) and not known:
                yield '%s: %s is a bound that checks/bounds.py has no shape for' % (name, constant)
    for name, constants in (*MET.items(), *NOT_MET.items()):
        for constant in constants:
            if constant not in found.get(name, ()):
                yield 'checks/bounds.py: there is no %s in %s' % (constant, name)
    for constants in MET.values():
        for shape in (it for shapes in constants.values() for it in shapes):
            if shape not in names:
                yield 'checks/bounds.py: there is no shape %r' % shape
