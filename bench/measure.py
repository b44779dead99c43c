#!/usr/bin/env python3
"""Times the program beside Debian's bgpdump and beside limit.c, all as `-m FILE`, in turn, and then its player.

    bench/measure.py PROGRAM STORES [FILE..]

Without files it makes five of about 30 MB, always the same octets: a table whose entries all have other attributes, one
of the old kind, updates, a table as routers send it, in which a peer has the same attributes for runs of prefixes, and
one whose runs are all of six. Of fifteen runs of the program and of limit, and three of bgpdump, the least processor
time counts; output goes to the null device. limit decodes without checks or allocation: what one core can do (it takes
a C compiler).

The player goes to the end of the file, back to its start, and to the end again, in five runs. Each
part is timed alone, and the whole with what follows it; the least processor times count, and the
ratio is to `-m`. Octets are those of the peak memory for each line of `-m`, which in a table is a path.

STORES is the program of crates/store_bench: it plays a table of 360,000 routes of one peer over both
stores, undoes and redoes it, and looks a million addresses up. Of five runs the least time of each
part counts. Octets are those of the peak memory for each key of a store that holds keys alone, with
the allocator's share, and without what the program holds besides.
"""
import os
import random
import shutil
import struct
import subprocess
import sys
import tempfile
import time
from functools import partial
from pathlib import Path

SIZE = 30_000_000
TRANSITS = (174, 209, 286, 701, 1239, 1299, 2914, 3257, 3320, 3356, 6453, 6461, 6762, 6939, 9002, 199524)

# The player's way over a file.
WAY = ('next', 'back', 'next')


def record(seconds, kind, subtype, body):
    return struct.pack('>IHHI', seconds, kind, subtype, len(body)) + body


def attribute(kind, value):
    return struct.pack('>BBB', 0x40, kind, len(value)) + value


def as_path(chance, narrow=False):
    """Three to seven hops, at times with the last one prepended; with numbers of two octets where narrow."""
    transits = [it for it in TRANSITS if it < 65536] if narrow else TRANSITS
    numbers = [chance.choice(transits) for _ in range(chance.randint(2, 6))]
    numbers += [chance.randrange(1, 64495) if narrow or chance.random() < 0.8 else
                chance.randrange(131072, 400000)] * (chance.randint(2, 5) if chance.random() < 0.12 else 1)
    return struct.pack('>BB%d%s' % (len(numbers), 'H' if narrow else 'I'), 2, len(numbers), *numbers)


def communities(chance, size):
    return bytes(chance.randrange(256) for _ in range(size * chance.randint(1, 10)))


def attributes(chance, reach, narrow=False):
    """The attributes of a route as full tables show them, with this NEXT_HOP or MP_REACH_NLRI."""
    parts = [attribute(1, b'\0'), attribute(2, as_path(chance, narrow)), reach]
    if chance.random() < 0.25:
        parts.append(attribute(4, struct.pack('>I', chance.randrange(1000))))
    if chance.random() < 0.05:
        parts.append(attribute(6, b''))
    if chance.random() < 0.08:
        number = struct.pack('>H', chance.choice(TRANSITS[:-1])) if narrow else struct.pack('>I', chance.choice(TRANSITS))
        parts.append(attribute(7, number + address(chance, 4)))
    if chance.random() < 0.9:
        parts.append(attribute(8, communities(chance, 4)))
    if chance.random() < 0.15:
        parts.append(attribute(32, communities(chance, 12)))
    if chance.random() < 0.04:
        parts.append(attribute(16, communities(chance, 8)))
    return b''.join(parts)


def address(chance, size):
    front = b'\xc3\x1a' if size == 4 else b'\x20\x01\x07\xf8' + bytes(8)
    return front + bytes(chance.randrange(256) for _ in range(size - len(front)))


def prefix(chance, size):
    if size == 4:
        bits = chance.choice((16, 19, 20, 22, 23, 24, 24, 24))
        front = chance.randrange(1 << bits) << (32 - bits)
    else:
        bits = chance.choice((29, 32, 36, 40, 44, 48, 48, 48))
        front = 0x2A << 120 | chance.randrange(1 << (bits - 8)) << (128 - bits)
    return bytes([bits]) + front.to_bytes(size, 'big')[:(bits + 7) // 8]


def write_index(out, chance):
    """A peer index of 40 IPv4 and 20 IPv6 peers; the peers, and how many octets it has."""
    peers = [(size, chance.choice(TRANSITS), address(chance, size)) for size in [4] * 40 + [16] * 20]
    index = b''.join(struct.pack('>BI', 2 if size == 4 else 3, n) + addr + struct.pack('>I', asn)
                     for n, (size, asn, addr) in enumerate(peers))
    return peers, out.write(record(1700000000, 13, 1, struct.pack('>IHH', 1, 0, 60) + index))


def write_table(out, chance):
    """An index of 40 IPv4 and 20 IPv6 peers, and prefixes with up to 40 entries each, every sixth of IPv6.

    Prefixes come in their order, those of IPv4 first, as collectors write them.
    """
    peers, written = write_index(out, chance)
    tables = []
    while written < SIZE:
        size = 16 if len(tables) % 6 == 5 else 4
        first, last = (40, 60) if size == 16 else (0, 40)
        chosen = chance.sample(range(first, last), chance.randint((last - first) // 2, last - first))
        spelled = prefix(chance, size)
        entries = struct.pack('>H', len(chosen))
        for peer in chosen:
            addr = peers[peer][2]
            reach = attribute(3, addr) if size == 4 else attribute(14, bytes([16]) + addr)
            found = attributes(chance, reach)
            entries += struct.pack('>HIH', peer, 1690000000 + len(tables), len(found)) + found
        tables.append((size, spelled[1:].ljust(size, b'\0'), spelled, entries))
        written += len(record(0, 0, 0, struct.pack('>I', 0) + spelled + entries))
    for sequence, (size, _, spelled, entries) in enumerate(sorted(tables)):
        body = struct.pack('>I', sequence) + spelled + entries
        out.write(record(1700000000, 13, 2 if size == 4 else 4, body))


class Runs:
    """The attributes of a peer's entries, which stay the same for a run of its prefixes.

    `length` draws how long a run is. `again` is the chance that a run has attributes that the peer had before.
    """

    def __init__(self, chance, reach, length, again):
        self.chance, self.reach, self.length, self.again = chance, reach, length, again
        self.left, self.before = 0, []

    def next(self):
        if self.left == 0:
            self.left = self.length(self.chance)
            if not self.before or self.chance.random() >= self.again:
                self.before.append(attributes(self.chance, self.reach))
                self.found = self.before[-1]
            else:
                self.found = self.chance.choice(self.before)
        self.left -= 1
        return self.found


def of_six(_):
    return 6


def as_routers_send(chance):
    """A run of one to a dozen, a half of them short."""
    return chance.randint(1, 2) if chance.random() < 0.5 else chance.randint(3, 12)


def write_table_of_runs(out, chance, length, again):
    """As write_table() writes it, but with peers whose attributes stay the same for runs of prefixes."""
    peers, _ = write_index(out, chance)
    runs = [Runs(chance, attribute(3, addr) if size == 4 else attribute(14, bytes([16]) + addr), length, again)
            for size, _, addr in peers]
    tables = sorted(((size, prefix(chance, size)) for size in [4] * 10_500 + [16] * 2_100),
                    key=lambda it: (it[0], it[1][1:].ljust(it[0], b'\0')))
    for sequence, (size, spelled) in enumerate(tables):
        first, last = (40, 60) if size == 16 else (0, 40)
        chosen = chance.sample(range(first, last), chance.randint((last - first) // 2, last - first))
        entries = struct.pack('>H', len(chosen))
        for peer in chosen:
            found = runs[peer].next()
            entries += struct.pack('>HIH', peer, 1690000000 + sequence, len(found)) + found
        body = struct.pack('>I', sequence) + spelled + entries
        out.write(record(1700000000, 13, 2 if size == 4 else 4, body))


def write_old_table(out, chance):
    """The entries of prefixes, up to 40 each, every sixth of IPv6, a record each (TABLE_DUMP).

    Prefixes come in their order, those of IPv4 first.
    """
    peers = {size: [(chance.choice(TRANSITS[:-1]), address(chance, size)) for _ in range(count)]
             for size, count in ((4, 40), (16, 20))}
    written, tables = 0, []
    while written < SIZE:
        size = 16 if len(tables) % 6 == 5 else 4
        spelled = prefix(chance, size)
        whole = spelled[1:].ljust(size, b'\0')
        entries = []
        for asn, addr in chance.sample(peers[size], chance.randint(len(peers[size]) // 2, len(peers[size]))):
            reach = attribute(3, addr) if size == 4 else attribute(14, bytes([16]) + addr)
            found = attributes(chance, reach, narrow=True)
            entries.append(whole + struct.pack('>BBI', spelled[0], 1, 1190000000 + len(tables)) + addr
                           + struct.pack('>HH', asn, len(found)) + found)
        tables.append((size, whole, entries))
        written += sum(len(record(0, 0, 0, bytes(4) + entry)) for entry in entries)
    number = 0
    for size, _, entries in sorted(tables):
        for entry in entries:
            out.write(record(1200000000, 12, 1 if size == 4 else 2, struct.pack('>HH', 0, number % 65536) + entry))
            number += 1


def update(chance, size, addr):
    """Announcements of one to four prefixes, or withdrawals of as many."""
    prefixes = b''.join(prefix(chance, size) for _ in range(chance.randint(1, 4)))
    if chance.random() < 0.8:
        if size == 4:
            found = attributes(chance, attribute(3, addr))
            return struct.pack('>HH', 0, len(found)) + found + prefixes
        reach = struct.pack('>HBB', 2, 1, 16) + addr + b'\0' + prefixes
        found = attributes(chance, attribute(14, reach))
        return struct.pack('>HH', 0, len(found)) + found
    if size == 4:
        return struct.pack('>H', len(prefixes)) + prefixes + struct.pack('>H', 0)
    found = attribute(15, struct.pack('>HB', 2, 1) + prefixes)
    return struct.pack('>HH', 0, len(found)) + found


def write_updates(out, chance):
    """UPDATE messages of 40 IPv4 and 8 IPv6 peers."""
    peers = [(size, chance.choice(TRANSITS), address(chance, size)) for size in [4] * 40 + [16] * 8]
    written = 0
    seconds = 1700000000
    while written < SIZE:
        size, asn, addr = chance.choice(peers)
        found = update(chance, size, addr)
        message = b'\xff' * 16 + struct.pack('>HB', 19 + len(found), 2) + found
        session = struct.pack('>IIHH', asn, 64499, 0, 1 if size == 4 else 2) + addr + address(chance, size)
        written += out.write(record(seconds, 16, 4, session + message))
        seconds += chance.random() < 0.01


KINDS = (
    ('table.mrt', write_table),
    ('old-table.mrt', write_old_table),
    ('updates.mrt', write_updates),
    ('table-as-sent.mrt', partial(write_table_of_runs, length=as_routers_send, again=0.3)),
    ('table-of-six.mrt', partial(write_table_of_runs, length=of_six, again=0)),
)


def made_files(folder):
    """The files, made where they aren't there yet."""
    files = []
    for name, write in KINDS:
        path = folder / name
        if not path.exists():
            part = folder / (name + '.part')
            with open(part, 'wb') as out:
                write(out, random.Random(name))
            part.rename(path)
        files.append(path)
    return files


def awaited(child):
    """What a process used, once it has ended."""
    _, status, usage = os.wait4(child.pid, 0)
    child.returncode = os.waitstatus_to_exitcode(status)
    if child.returncode not in (0, 1):
        sys.exit('%s ended with %d' % (' '.join(child.args), child.returncode))
    return usage


def run(command, out=subprocess.DEVNULL):
    """The processor time of a command in seconds."""
    usage = awaited(subprocess.Popen(command, stdout=out, stderr=subprocess.DEVNULL))
    return usage.ru_utime + usage.ru_stime


def peak_memory(command):
    """The peak memory of a command in MiB, as GNU time tells it."""
    if not shutil.which('time'):
        return '-'
    told = subprocess.run(['time', '-f', '%M', *command], stdout=subprocess.DEVNULL,
                          stderr=subprocess.PIPE, text=True)
    return '%.1f' % (int(told.stderr.split()[-1]) / 1024)


def line_count(command):
    with tempfile.TemporaryFile() as out:
        run(command, out)
        out.seek(0)
        return sum(block.count(b'\n') for block in iter(lambda: out.read(1 << 20), b''))


def built_limit(folder):
    """The program of limit.c, where there is a C compiler."""
    compiler = shutil.which('cc')
    if not compiler:
        return None
    source = Path(__file__).resolve().parent / 'limit.c'
    subprocess.run([compiler, '-O2', '-o', folder / 'limit', source], check=True)
    return str(folder / 'limit')


def measure_lines(program, limit, path):
    """Prints the times of `-m`; the number of lines, and the least time of the program."""
    commands = {'ours': [program, '-m', str(path)]}
    if limit:
        commands['limit'] = [limit, str(path)]
    rival = shutil.which('bgpdump')
    if rival:
        commands['bgpdump'] = [rival, '-q', '-m', str(path)]
    lines = line_count(commands['ours'])
    best = {}
    for turn in range(15):
        for name, command in commands.items():
            if name != 'bgpdump' or turn < 3:
                best[name] = min(best.get(name, 1e9), run(command))
    for name, seconds in best.items():
        print('%-17s %-9s %7.3f %9d %10s %7.1f' % (
            path.name, name, seconds, lines / seconds, peak_memory(commands[name]), seconds / best['ours']))
    return lines, best['ours']


def written_script(folder):
    """The script of the player's way, with so much to print behind each part that no pipe holds it."""
    script = folder / 'steps'
    script.write_text(''.join(part + ' 4294967295\n' + 'where\n' * 20_000 for part in WAY))
    return str(script)


def time_when_waiting(process):
    """The processor time in seconds of a process that soon waits; the system tells it late before."""
    time.sleep(0.02)
    return int(Path('/proc/%d/schedstat' % process).read_text().split()[0]) / 1e9


def played(command):
    """The processor time of each part of the player's way and of all, and the peak memory in KiB."""
    child = subprocess.Popen(command, stdout=subprocess.PIPE, stderr=subprocess.DEVNULL)
    # The program waits behind each of these lines, since the pipe is full of what follows.
    ends = [time_when_waiting(child.pid) for line in child.stdout if b'ahead' not in line]
    # Its peak is never less than this script's size, which a child begins with.
    usage = awaited(child)
    parts = [end - start for start, end in zip([0] + ends, ends)]
    return parts + [usage.ru_utime + usage.ru_stime], usage.ru_maxrss


def measure_player(command, lines, dump):
    """Prints the times of each part of the player's way and of all, and the memory."""
    turns = [played(command) for _ in range(5)]
    peak = max(peak for _, peak in turns)
    for part, times in zip(WAY + ('all',), zip(*(times for times, _ in turns))):
        seconds = min(times)
        print('%-17s %-9s %7.3f %9d %10.1f %7.1f %7d' % (
            Path(command[-1]).name, part, seconds, lines / seconds, peak / 1024, seconds / dump,
            peak * 1024 / max(lines, 1)))


def measure_stores(program):
    """Prints the times of each part over both stores, and the memory of a key."""
    held = int(peak_kib([program, 'none']))
    for store in ('map', 'radix'):
        turns = [subprocess.run([program, store], capture_output=True, text=True).stdout.split() for _ in range(5)]
        times = [min(int(turn[part]) for turn in turns) for part in range(4)]
        keys = int(subprocess.run([program, store + '-keys'], capture_output=True, text=True).stdout)
        octets = (peak_kib([program, store + '-keys']) - held) * 1024 / keys
        print('%-14s %7d %7d %7d %9d %8.0f' % (store, *times, octets))


def peak_kib(command):
    """The peak memory of a command in KiB."""
    return awaited(subprocess.Popen(command, stdout=subprocess.DEVNULL)).ru_maxrss


def main():
    if len(sys.argv) < 3:
        sys.exit(__doc__)
    folder = Path(tempfile.gettempdir()) / 'bgpdump-bench'
    folder.mkdir(exist_ok=True)
    program = str(Path(sys.argv[1]).resolve())
    files = [Path(word) for word in sys.argv[3:]] or made_files(folder)
    print('file              program   seconds   lines/s   peak MiB   ratio')
    limit = built_limit(folder)
    measured = [measure_lines(program, limit, path) for path in files]
    if not shutil.which('bgpdump'):
        print("Debian's bgpdump isn't here to compare with: apt-get install bgpdump")
    print('file              player    seconds   lines/s   peak MiB   ratio  octets')
    script = written_script(folder)
    for path, (lines, dump) in zip(files, measured):
        measure_player([program, '--play', script, str(path)], lines, dump)
    print('store, in ms      play    undo    redo   longest   octets')
    measure_stores(str(Path(sys.argv[2]).resolve()))


if __name__ == '__main__':
    main()
