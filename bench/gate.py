#!/usr/bin/env python3
"""Runs `rt ci`, and tells what it cost: processor minutes and the minutes in between, by crate and kind.

    bench/gate.py [SECONDS]

Each SECONDS (1) it looks at the prover's processes below that run, by the crate and the kind of work
that their words and folders tell, and at how long they have run; what a process does behind the last
look is lost, a second or so each. Its own output follows that of `rt ci`, whose status it ends with.
"""
import collections
import os
import re
import subprocess
import sys
import threading
import time

TICKS = os.sysconf('SC_CLK_TCK')
KINDS = ('proof', 'tests', 'edits', 'build')


def words_of(pid):
    with open(f'/proc/{pid}/cmdline', 'rb') as it:
        return it.read().decode(errors='replace').split('\0')


def work_of(pid):
    """The crate and the kind of work of a process of the prover; None for another."""
    words = words_of(pid)
    if not words[0].endswith('/rattle') or '--crate-name' not in words:
        return None
    crate = words[words.index('--crate-name') + 1]
    if '/rt-edit-' in os.readlink(f'/proc/{pid}/cwd'):
        return crate, 'edits'
    if '--test' in words:
        return crate, 'tests'
    return crate, 'build' if '--crate-checked' in words else 'proof'


def numbers_of(pid):
    """What the system tells of a process behind its name: its state, its parent, and so on."""
    with open(f'/proc/{pid}/stat') as it:
        return it.read().rpartition(')')[2].split()


def seconds_of(pid):
    """The processor time of a process itself, without that of its children."""
    fields = numbers_of(pid)
    return (int(fields[11]) + int(fields[12])) / TICKS


def is_below(pid, root):
    """Whether the process is the root's child, or a child's child, and so on."""
    while pid not in ('0', '1', root):
        pid = numbers_of(pid)[1]
    return pid == root


def stolen():
    """The processor time that other machines took, and all time there was, in seconds."""
    with open('/proc/stat') as it:
        fields = [int(word) / TICKS for word in it.readline().split()[1:]]
    return fields[7], sum(fields[:8])


class Looks:
    """What was seen of each process: its work, its processor time, and when it was seen."""

    def __init__(self, root):
        self.root, self.work, self.seconds, self.span = str(root), {}, {}, {}

    def look(self, now):
        for pid in filter(str.isdigit, os.listdir('/proc')):
            try:
                work = work_of(pid)
                if work and is_below(pid, self.root):
                    self.work[pid] = work
                    self.seconds[pid] = seconds_of(pid)
                    first, _ = self.span.get(work, (now, now))
                    self.span[work] = first, now
            except (OSError, ValueError, IndexError):
                continue

    def minutes(self):
        found = collections.Counter()
        for pid, work in self.work.items():
            found[work] += self.seconds[pid] / 60
        return found


def table(looks, begun):
    minutes = looks.minutes()
    print(f'{"crate":28}' + ''.join(f'{kind:>22}' for kind in KINDS) + '   (processor minutes, from and to minute)')
    for crate in sorted({crate for crate, _ in minutes}, key=lambda it: -sum(minutes[it, k] for k in KINDS)):
        row = f'{crate:28}'
        for kind in KINDS:
            if (crate, kind) in minutes:
                first, last = (f'{(at - begun) / 60:.0f}' for at in looks.span[crate, kind])
                row += f'{minutes[crate, kind]:12.1f} {first:>4}-{last:<4}'
            else:
                row += ' ' * 22
        print(row.rstrip())
    sums = [sum(m for (_, k), m in minutes.items() if k == kind) for kind in KINDS]
    print(f'{"all":28}' + ''.join(f'{it:12.1f}          ' for it in sums).rstrip() + f'   {sum(sums):.0f} in all')


def main():
    every = float(sys.argv[1]) if len(sys.argv) > 1 else 1.0
    begun, (stolen_before, all_before) = time.time(), stolen()
    run = subprocess.Popen(['rt', 'ci'], stdout=subprocess.PIPE, stderr=subprocess.STDOUT, text=True, errors='replace')
    looks = Looks(run.pid)

    def follow():
        for line in run.stdout:
            print(f'{(time.time() - begun) / 60:6.1f} {line}' if re.match(r'rt: |\d+ passed', line) else line, end='', flush=True)

    follower = threading.Thread(target=follow)
    follower.start()
    while run.poll() is None:
        looks.look(time.time())
        time.sleep(every)
    follower.join()
    stolen_now, all_now = stolen()
    table(looks, begun)
    print(f'{(time.time() - begun) / 60:.0f} minutes on {len(os.sched_getaffinity(0))} processors, of whose time '
          f'others took {100 * (stolen_now - stolen_before) / (all_now - all_before):.0f} %')
    sys.exit(run.returncode)


if __name__ == '__main__':
    main()
