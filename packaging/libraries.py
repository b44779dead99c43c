#!/usr/bin/env python3
"""Proves and builds the libraries that a program stands on, several side by side.

    packaging/libraries.py PROGRAM [AT_ONCE]

`rt run` makes one library after the other, and parts of that keep one processor busy. Here each is made
as soon as those that it stands on are there, AT_ONCE (2) at a time, in a copy of the sources, since no
two rt work below one folder; what it made is moved to its place, where `rt run` finds it. A library that
is there for the same sources is kept. The status is 1 where one isn't proved.
"""
import os
import shutil
import subprocess
import sys
import tempfile
import time
from concurrent.futures import FIRST_COMPLETED, ThreadPoolExecutor, wait
from pathlib import Path

TOP = Path(__file__).resolve().parent.parent


def crates_below():
    """Of each crate those of this repository that its line of crates.txt names."""
    named = {}
    for line in (TOP / 'crates.txt').read_text().splitlines():
        name, colon, words = line.partition('#')[0].partition(':')
        if colon:
            named[name.strip()] = words.split()
    return {name: [word for word in words if word in named] for name, words in named.items()}


def all_below(below, name):
    found = set()
    for other in below[name]:
        found |= {other} | all_below(below, other)
    return found


def linked(source, target):
    """A further name of the file, or a copy where that can't be had."""
    try:
        os.link(source, target)
    except OSError:
        shutil.copy2(source, target)


def lines_of(crates):
    """Their lines of crates.txt."""
    lines = (TOP / 'crates.txt').read_text().splitlines(keepends=True)
    return ''.join(line for line in lines if line.partition(':')[0].strip() in crates)


def copy_for(folder, name, others):
    """What rt needs to make the library: its files, and the sources and libraries of the others."""
    (folder / 'crates.txt').write_text(lines_of({name} | others))
    shutil.copytree(TOP / 'crates' / name, folder / 'crates' / name)
    for other in others:
        source, target = TOP / 'crates' / other, folder / 'crates' / other
        shutil.copytree(source, target, ignore=shutil.ignore_patterns('out'))
        if (source / 'out/rlib').is_dir():
            shutil.copytree(source / 'out/rlib', target / 'out/rlib', copy_function=linked)


def make(name, others):
    """Makes the library; whether it is proved, and what rt printed."""
    with tempfile.TemporaryDirectory(prefix='rumpleja-') as folder:
        copy_for(Path(folder), name, others)
        made = Path(folder, 'crates', name)
        told = subprocess.run(['rt', 'lib'], cwd=made, text=True, stdout=subprocess.PIPE,
                              stderr=subprocess.STDOUT)
        if told.returncode == 0:
            shutil.rmtree(TOP / 'crates' / name / 'out', ignore_errors=True)
            shutil.move(made / 'out', TOP / 'crates' / name / 'out')
    return told.returncode == 0, told.stdout


def make_all(below, wanted, at_once):
    """Makes all that are wanted, each behind those that it stands on; whether all are proved."""
    start, left, made, running = time.time(), sorted(wanted), set(), {}
    with ThreadPoolExecutor(at_once) as pool:
        while left or running:
            for name in [it for it in left if made.issuperset(below[it])]:
                left.remove(name)
                running[pool.submit(make, name, all_below(below, name))] = name
            for it in wait(running, return_when=FIRST_COMPLETED).done:
                name, (is_proved, printed) = running.pop(it), it.result()
                if not is_proved:
                    print(printed, end='')
                    print(f'{name} is not proved')
                    pool.shutdown(cancel_futures=True)
                    return False
                made.add(name)
                print(f'{name} is proved, after {time.time() - start:.0f} s', flush=True)
    return True


def main():
    if len(sys.argv) not in (2, 3):
        sys.exit(__doc__)
    below = crates_below()
    wanted = all_below(below, sys.argv[1])
    at_once = int(sys.argv[2]) if len(sys.argv) == 3 else 2
    sys.exit(not make_all(below, wanted, at_once))


if __name__ == '__main__':
    main()
