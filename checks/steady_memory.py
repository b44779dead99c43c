"""Runs of `-m` over long files, which are to ask for memory as often as those over short ones.

What a record was read into serves the next ones, also where a record has several entries of one peer.
Where others choose the paths, the peers and the lengths, the memory in use stays small as well.
"""
import shaped
from records import communities, entry, index, message, net, old_entry, route, segment, table
from using import PEAK_OF_LINES, Runs

SHORT, LONG = 200, 2000


def attributes(number, other):
    """A path, and a community that other numbers give others of."""
    return route(segment(4, 64496, 64500 + number), communities(other))


def table_entries(count):
    """Records of the only peer, most with an entry, and every tenth with twelve."""
    yield index(1)
    for number in range(count):
        yield table(number, net(number), [entry(0, attributes(number, other)) for other in
                                          range(1 if number % 10 else 12)])


def old_table_entries(count):
    """Records of two peers by turns."""
    for number in range(count):
        yield old_entry(number, number % 2, route(segment(2, 64496, number)))


def segmented_entries(count):
    """Records of the only peer with paths of three segments, which have no place."""
    yield index(1)
    for number in range(count):
        path = segment(4, 64496) + segment(4, 64500 + number) + segment(4, number)
        yield table(number, net(number), [entry(0, route(path))])


def messages(count):
    """UPDATEs that announce two prefixes and withdraw one."""
    for number in range(count):
        yield message(net(number + 1), attributes(number, 1), net(number) + net(number + 2))


def run_over(calls, octets):
    file = calls.folder / 'made.mrt'
    file.write_bytes(octets)
    return calls.run(['-m', str(file)])


def faults_of_requests(calls):
    """Runs the program over short and long files of each kind, and gives what is wrong."""
    for make, lines in ((table_entries, 4200), (old_table_entries, 2000), (segmented_entries, 2000),
                        (messages, 6000)):
        short, long = (run_over(calls, b''.join(make(count))) for count in (SHORT, LONG))
        if (short.status, long.status, long.out.count(b'\n')) != (0, 0, lines):
            yield '%s: statuses %d and %d, %d lines' % (
                make.__name__, short.status, long.status, long.out.count(b'\n'))
        if short.made['memory'] != long.made['memory']:
            yield '%s: %d requests for memory for %d records, %d for %d' % (
                make.__name__, short.made['memory'], SHORT, long.made['memory'], LONG)


# Files that others shape, by what they are.
SHAPED = (
    ('paths that climb', lambda: shaped.climbing_old_table(2, peers=64, most=1024)),
    ('short paths of many peers that climb', lambda: shaped.climbing_old_table(1, peers=1024, most=250)),
    ('entries of many peers in a record', lambda: shaped.many_peers_table(20, peers=1000)),
    ('long messages and entries by turns', lambda: shaped.turns(200)),
)


def faults_of_peaks(runs):
    """Runs the program over files that others shape, and gives where it holds too much."""
    for name, make in SHAPED:
        used = runs.over(make())
        if used.status != 0 or used.peak > PEAK_OF_LINES:
            yield '%s: status %d, a peak of %d KiB, of which %d is the most' % (
                name, used.status, used.peak, PEAK_OF_LINES)


def faults_of_long_runs(calls):
    yield from faults_of_requests(calls)
    yield from faults_of_peaks(Runs(calls.program, calls.folder))
