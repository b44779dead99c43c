#!/usr/bin/env python3
"""Tries edits, each of which the prover must refuse: those of inner functions, which the gate leaves out.

    checks/inner_edits.py [CRATE ...]
    checks/inner_edits.py CRATE/EDIT ...

Those of whole crates, of all that have such edits where none is named, are tried by `rt must-fail` in a
copy of the checkout where they stand in the place of those of must-fail/. An edit that is named itself,
by its file's name without `.edit`, may also be one of must-fail/: it is made in a copy of its crate, which
`rt check` then looks at, over what the checks before have kept, and what it says is printed; so the
libraries below should be there (packaging/libraries.py CRATE), and the crate have been checked. Each edit
that is let through is told, and then the status is 1.
"""
import re
import shutil
import subprocess
import sys
import tempfile
from pathlib import Path

TOP = Path(__file__).resolve().parent.parent
sys.path.insert(0, str(TOP / 'packaging'))
from libraries import all_below, copy_for, crates_below  # noqa: E402

PAIR = re.compile(r'^old: (.*)\nnew: (.*)$', re.M)


def crates_with_edits():
    return sorted(folder.parent.name for folder in TOP.glob('crates/*/inner-edits'))


def exchange(copy, crates):
    """Leaves the inner edits of these crates alone, in the place of all others."""
    for folder in copy.glob('crates/*/must-fail'):
        shutil.rmtree(folder)
    for crate in crates:
        shutil.copytree(TOP / 'crates' / crate / 'inner-edits', copy / 'crates' / crate / 'must-fail')


def try_crates(crates):
    """Tries all inner edits of these crates; whether each is refused."""
    for crate in crates:
        if crate not in crates_with_edits():
            sys.exit(f'inner edits: {crate} has none; there are some of {", ".join(crates_with_edits())}')
    with tempfile.TemporaryDirectory() as room:
        copy = Path(room, 'copy')
        shutil.copytree(TOP, copy, ignore=shutil.ignore_patterns('.git', 'bin', 'out'), symlinks=True)
        exchange(copy, crates)
        return subprocess.run(['rt', 'must-fail', *crates], cwd=copy, check=False).returncode == 0


def make_edit(folder, edit):
    """Makes the edit in a copy of its crate."""
    head, _, pairs = edit.read_text().partition('\n')
    file = folder / head.removeprefix('file: ').strip()
    text = file.read_text()
    for old, new in PAIR.findall(pairs):
        if text.count(old) != 1:
            sys.exit(f'inner edits: {edit.stem} does not apply')
        text = text.replace(old, new)
    file.write_text(text)


def try_edit(word):
    """Tries one edit; whether it is refused."""
    crate, _, name = word.partition('/')
    found = list((TOP / 'crates' / crate).glob(f'*/{name}.edit'))
    if not found:
        sys.exit(f'inner edits: there is no edit {word}')
    with tempfile.TemporaryDirectory() as room:
        copy_for(Path(room), crate, all_below(crates_below(), crate))
        folder = Path(room, 'crates', crate)
        make_edit(folder, found[0])
        told = subprocess.run(['rt', 'check'], cwd=folder, text=True, stdout=subprocess.PIPE,
                              stderr=subprocess.STDOUT, check=False)
    print(*(line for line in told.stdout.splitlines() if re.match(r'note: src|\S+: error|error', line)), sep='\n')
    print(f'{word}: {"refused" if told.returncode == 1 else "LET THROUGH, or not tried"}')
    return told.returncode == 1


def main():
    words = sys.argv[1:] or crates_with_edits()
    edits, crates = [it for it in words if '/' in it], [it for it in words if '/' not in it]
    refused = [try_edit(it) for it in edits]
    if crates:
        refused.append(try_crates(crates))
    sys.exit(not all(refused))


main()
