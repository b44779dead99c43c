#!/usr/bin/env python3
"""What takes seconds to check and would fail the gate an hour later.

    checks/quick.py

Each edit that must fail still applies, and is named by the file and the function that it turns, in
which its text lies, those of inner functions too, which the gate doesn't try; `rt fmt` changes
nothing; tests stand in a crate of their own; no two files of a crate import each other; links between
documents lead somewhere, and the edits that docs/proved.md names and the files of code that documents
name are there; the texts of each example are there; the files of rows and their counts are named; the
version is the same wherever it is named; doc comments have the words of std and of the field; no code
makes a want of memory that isn't known to hand one on; each bound that an input may be chosen to meet
has a shape that does (bounds.py).
The status is 1 where something is wrong, and each fault is told on a line of its own.
"""
import itertools
import re
import shutil
import subprocess
import sys
import tempfile
from pathlib import Path

from bounds import faults_of_bounds
from wants import faults_of_wants

TOP = Path(__file__).resolve().parent.parent
# The crates of the program, and words that doc comments once had where std or the field has others.
SHIPPED = ('octet_text', 'ip_prefix', 'bgp_paths', 'bgp_wire', 'mrt_frames', 'mrt_events', 'mrt_wire', 'prefix_store',
           'rib_store', 'known_routes', 'rib_player', 'bgpdump_lines', 'bgpdump_command_line', 'bgpdump_tool', 'bgpdump')
OLD_WORDS = r'\b(?:[Nn]othing is (?:said|owed)|owed|told|at hand|pass(?:es|ed)? on|from there|behind)\b'
PARTS = ('src', 'specs', 'proofs')


def without_space(text):
    """The text without comments and white space."""
    return re.sub(r'\s', '', re.sub(r'//.*', '', text))


def changes_of(edit):
    """The file that an edit names, and its pairs of old and new texts."""
    path, old, pairs = None, None, []
    for line in edit.read_text().splitlines():
        key, _, text = line.partition(':')
        if key == 'file':
            path = text.strip()
        elif key == 'old':
            old = text[1:]
        elif key == 'new':
            pairs.append((path, old, text[1:]))
    return pairs


def item_before(text, end):
    """The name of the last function, constant or table that begins before this place, where it begins
    and where it ends."""
    found = list(re.finditer(r"(?m)^( *)(?:[\w()]+ )*(?:fn|(?<!')static|const(?! fn\b)) (\w+)", text[:end]))
    if not found:
        return None, 0, 0
    last = found[-1]
    close = re.compile(r'(?m)^%s[}\]].*\n|^%s(?! )[^\n]*;\n' % (last[1], last[1]))
    stop = close.search(text, last.end())
    return last[2], last.start(), stop.end() if stop else len(text)


def faults_of_edit(edit):
    texts, crate = {}, edit.parent.parent
    for path, old, new in changes_of(edit):
        if not (crate / path).is_file():
            return [f'there is no file {path}']
        text = texts.get(path) or (crate / path).read_text()
        if text.count(old) != 1:
            return [f'its old text stands {text.count(old)} times in {path}: {old.strip()[:80]}']
        if not texts:
            place = path.removeprefix('src/').removesuffix('.rt').replace('/', '_')
            start, end = text.index(old), text.index(old) + len(old)
            name, first, last = item_before(text, end)
            if not edit.name.startswith(f'{place}-{name}-'):
                return [f'its name should begin with {place}-{name}-']
            if start < first or end > last:
                return [f'its text does not lie inside {name}']
        if without_space(old) == without_space(new):
            return ['it changes nothing']
        texts[path] = text.replace(old, new)
    return [] if texts else ['it names no change']


def faults_of_edits():
    for edit in sorted([*TOP.glob('crates/*/must-fail/*'), *TOP.glob('crates/*/inner-edits/*')]):
        yield from ((edit, fault) for fault in faults_of_edit(edit))
        if (edit.parent.parent / 'must-fail' / edit.name).exists() and edit.parent.name == 'inner-edits':
            yield edit, 'the gate tries it too'


def faults_of_named_edits():
    """The edits that a document names as those that refuse a wrong body."""
    document = TOP / 'docs/proved.md'
    for crate, name in re.findall(r'`(\w+)/(\w+-\w+-\w+)`', document.read_text()):
        if not (TOP / 'crates' / crate / 'must-fail' / f'{name}.edit').is_file():
            yield document, f'the gate tries no edit {crate}/{name}'


def faults_of_format():
    """The files that `rt fmt` would change, tried on a copy."""
    with tempfile.TemporaryDirectory() as room:
        for crate in sorted((TOP / 'crates').iterdir()):
            there = Path(room, crate.name)
            for part in PARTS:
                if (crate / part).is_dir():
                    shutil.copytree(crate / part, there / part)
            subprocess.run(['rt', 'fmt'], cwd=there, check=True, stdout=subprocess.DEVNULL)
            for file in sorted(there.rglob('*')):
                if file.is_file() and file.read_bytes() != (crate / file.relative_to(there)).read_bytes():
                    yield crate / file.relative_to(there), 'rt fmt lays it out otherwise'


def faults_of_crates():
    listed = set(re.findall(r'^(\w+)[^:#\n]*:', (TOP / 'crates.txt').read_text(), re.M))
    for crate in sorted((TOP / 'crates').iterdir()):
        if crate.name not in listed:
            yield crate, 'crates.txt does not list it'
        is_tests = crate.name.endswith('_tests')
        if (crate / 'src/lib.rt').is_file() and not is_tests:
            for file in sorted((crate / 'src').rglob('*.rt')):
                if '#[test]' in file.read_text():
                    yield file, 'tests of a library stand in value_tests, library_tests or play_tests'


def paths_of(words):
    """The paths that a `use` names, those of its groups one by one."""
    while group := re.search(r'([\w:]*)\{([^{}]*)\}', words):
        parts = [group[1] + it.strip() for it in group[2].split(',') if it.strip()]
        words = words[:group.start()] + ', '.join(parts) + words[group.end():]
    return words.split(', ')


def imports_of(module, text, modules):
    """The modules of its crate that a file imports from. What it hands out of others isn't imported."""
    for words in re.findall(r'^ *use ((?:crate|super)\b[^;]*);', text, re.M):
        for parts in (path.split('::') for path in paths_of(words)):
            rises = parts.count('super')
            whole = [*module.split('::')[:-rises], *parts[rises:]] if rises else parts[1:]
            fronts = {'::'.join(whole[:size]) for size in range(1, len(whole) + 1)}
            yield max(fronts & modules, key=len, default=None)


def faults_of_imports():
    """The files of a crate that import each other."""
    for crate in sorted((TOP / 'crates').iterdir()):
        files = {'::'.join(it.relative_to(crate / 'src').with_suffix('').parts): it
                 for it in sorted((crate / 'src').rglob('*.rt'))}
        imports = {name: {*imports_of(name, file.read_text(), files.keys())} for name, file in files.items()}
        for one, other in itertools.combinations(files, 2):
            if one in imports[other] and other in imports[one]:
                yield files[one], f'it and {files[other].relative_to(crate)} import each other'


def anchors_of(document):
    """The anchors of a document's headings, as its readers make them."""
    for heading in re.findall(r'^#+ (.*)$', document.read_text(), re.M):
        yield re.sub(r'[^\w\- ]', '', heading.lower()).replace(' ', '-')


def faults_of_links():
    for document in sorted([*TOP.glob('*.md'), *TOP.glob('docs/*.md'), *TOP.glob('examples/*.md')]):
        text = re.sub(r'```.*?```', '', document.read_text(), flags=re.S)
        for link in re.findall(r'\]\(([^)\s]+)\)', text):
            path, _, anchor = link.partition('#')
            target = (document.parent / path).resolve() if path else document
            if '://' in link:
                continue
            if not target.exists():
                yield document, f'its link to {link} leads nowhere'
            elif anchor and target.suffix == '.md' and anchor not in anchors_of(target):
                yield document, f'its link to {link} names no heading'


def faults_of_named_files():
    """The files of code that a document names may have got another name, or be gone."""
    there = {file.name for part in PARTS for file in TOP.glob(f'crates/*/{part}/**/*')}
    there |= {file.name for folder in ('bench', 'checks', 'examples', 'packaging')
              for file in (TOP / folder).iterdir()}
    for document in sorted([*TOP.glob('*.md'), *TOP.glob('docs/*.md')]):
        for words in re.findall(r'`([^`\n]+)`', document.read_text()):
            for name in re.findall(r'\w+\.(?:rt|antt|py)\b', words):
                if name not in there:
                    yield document, f'it names {name}, which is not there'


def faults_of_examples():
    files = {it.name for it in (TOP / 'examples').iterdir()}
    for name in sorted({it.rpartition('.')[0] for it in files if it.endswith(('.mrt', '.lines', '.reports'))}):
        for kind in ('mrt', 'lines', 'reports'):
            if f'{name}.{kind}' not in files:
                yield TOP / 'examples', f'it has no {name}.{kind}'


def faults_of_rows():
    """The gate carries out each file of rows, and wants all of its rows to agree."""
    crate = TOP / 'crates/rows'
    files = sorted((crate / 'data').iterdir())
    if (crate / 'args').read_text().split() != [it.name for it in files]:
        yield crate / 'args', 'it does not name the files of data/ in order'
    counts = [len(re.findall(r'^[a-z][a-z0-9 ]*: ', it.read_text(), re.M)) for it in files]
    lines = [f'{it.name}: {count} rows agree' for it, count in zip(files, counts)]
    if (crate / 'stdout').read_text().splitlines() != lines:
        yield crate / 'stdout', 'it counts other rows than stand in data/'


def faults_of_version():
    """The version that the program's help names stands in what else names it."""
    text = (TOP / 'crates/bgpdump_command_line/src/arguments.rt').read_text()
    version = re.search(r"Rumpleja's bgpdump (\d+\.\d+\.\d+): ", text)[1]
    for name, words in [('man/bgpdump.1', f'.Os Rumpleja {version}\n'),
                        ('README.md', f'bin/rumpleja_{version}_amd64.deb')]:
        if words not in (TOP / name).read_text():
            yield TOP / name, f'it does not name version {version}'


def comments_of(text):
    """Each doc comment, as one line of words, with the text before it."""
    for found in re.finditer(r'(?:^ *//[/!].*\n)+', text, re.M):
        yield text[:found.start()], ' '.join(line.strip()[3:].strip() for line in found[0].splitlines())


def faults_of_comments():
    """Doc comments stand by themselves, in the words of std and of the field."""
    for crate in SHIPPED:
        for file in sorted((TOP / 'crates' / crate / 'src').rglob('*.rt')):
            for before, comment in comments_of(file.read_text()):
                if re.match(r'The same\b|None\.', comment) or re.search(OLD_WORDS, comment):
                    yield file, 'line %d has a doc comment in words of its own' % (before.count('\n') + 1)


def main():
    found = [
        (place, fault)
        for faults in (faults_of_edits, faults_of_named_edits, faults_of_format, faults_of_crates, faults_of_imports,
                       faults_of_links, faults_of_named_files, faults_of_examples, faults_of_rows, faults_of_version,
                       faults_of_comments)
        for place, fault in faults()
    ] + list(faults_of_wants(item_before))
    for place, fault in found:
        print(f'{place.relative_to(TOP)}: {fault}')
    without_shape = list(faults_of_bounds())
    for fault in without_shape:
        print(fault)
    count = len(found) + len(without_shape)
    print(f'quick checks: {count or "no"} faults')
    sys.exit(bool(count))


main()
