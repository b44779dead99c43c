#!/usr/bin/env python3
"""What must be read to believe a contract: the definitions that it rests on, word by word.

    checks/trusted.py [CALL | --print | --write]

From the clauses of a call or a law, or of all public calls of a type or a trait, it goes through the
words that they cite, and through the words that these cite, to all definitions in the crates' specs/
folders, and through the values that contracts see of the types in between. With a CALL, as the lists of
docs/proved.md name it, it prints these definitions, those first that others stand on.

With --print it prints what docs/proved.md should have: the claims with their clauses (claims.py), and
the list of each call, with the definitions that those above it don't have. With --write it puts them
there. Without a word it compares, and prints the first line of each that differs. It looks besides that
a file of specs/ is all on these lists where its first line isn't PRIVATE, that the page names the words
of the standard library that the clauses and definitions cite, and no others, that the contracts and
definitions that it shows are those of the code, and that README.md has the claims.
"""
import re
import sys
from dataclasses import dataclass, field
from functools import lru_cache
from pathlib import Path

from claims import CLAIMS, claims

TOP = Path(__file__).resolve().parent.parent
CRATES = TOP / 'crates'
LISTS = TOP / 'docs/proved.md'

PLAYER = 'rib_player/src/player.rt'

# What has a list in docs/proved.md, in their order: by the file that has them the names of calls and laws, or
# None for all public calls of a type or a trait, which then has the list's name.
CALLS = {
    'laws of histories': {'rib_player/src/laws.rt': (
        'law_history_after_one_call', 'law_history_after_all_calls', 'law_player_follows_history', 'law_one_step_back',
        'law_steps_back_and_forth', 'law_forgetting_keeps_tables')},
    'Player::table': {PLAYER: ('table',)},
    'Player::play': {PLAYER: ('play',)},
    'Player::undo': {PLAYER: ('undo',)},
    'Player::redo': {PLAYER: ('redo',)},
    'Player::forget': {PLAYER: ('forget',)},
    'Source::next': {'mrt_wire/src/source.rt': ('next',)},
    'run_dump': {'bgpdump_lines/src/dump.rt': ('run_dump',)},
    'run_play': {'bgpdump_tool/src/play.rt': ('run_play',)},
    'dump': {'bgpdump/src/run.rt': ('dump',), 'bgpdump/src/in_memory.rt': ('dump_in_memory',)},
    'play': {'bgpdump/src/run.rt': ('play',), 'bgpdump/src/in_memory.rt': ('play_in_memory',)},
    'Input': {'mrt_frames/src/input.rt': None},
    'Output': {'bgpdump_lines/src/output.rt': None},
    'laws of splits and scripts': {
        'mrt_wire/src/laws.rt': ('law_input_splits_in_one_way', 'law_input_splits_into_records', 'law_octets_have_one_record_content'),
        'bgpdump_tool/src/laws.rt': ('law_one_script', 'law_one_command', 'law_best_match')},
    'Player': {PLAYER: None},
    'Table': {'rib_player/src/table.rt': None},
    'PrefixStore': {'prefix_store/src/store.rt': None},
    'settings': {'bgpdump_command_line/src/command_line.rt': ('settings',)},
    'all laws': {str(path.relative_to(CRATES)): tuple(re.findall(r'(?m)^pub fn (\w+)', path.read_text()))
                 for path in sorted(CRATES.glob('*/src/*laws.rt'))},
}

# The heading of the page's section on the words of the standard library.
STD_HEADING = '## Words of the standard library'

# The first line of a file of specs/ that has nothing to be read, or only what the lists mark so.
PRIVATE = '-- Private.'

NAME = r"[A-Za-z_][A-Za-z0-9_'\-]*"
WORD = re.compile(r"%s(?:\.%s)*" % (NAME, NAME))
STD_USE = re.compile(r'use Rattle\.std\.specs((?:\.(?!declared)%s)+)(?:\.\{([^}]*)\}| as (%s))' % (NAME, NAME))
# Modules of the standard library whose words are named with them.
NAMED_MODULES = ('FinMap', 'FinSet')
USE = re.compile(r'(?:ghost )?(?:pub )?use (Rattle(?:\.%s)+)(?:\.\{([^}]*)\}| as (%s))?' % (NAME, NAME))
HEAD = re.compile(r"(?:(?:abbrev|unfoldable|pub|record|data) )*(%s)(?: [({].*?[)}])* : " % NAME)


@dataclass(frozen=True)
class Definition:
    """A word of a file in specs/, with the lines that define it, and the comment in front of them."""
    file: Path
    name: str
    first: int
    text: str

    @property
    def size(self):
        return self.text.count('\n') + 1


@dataclass
class Scope:
    """What a file's names stand for: words of ours and of the standard library, modules under another name, and
    types."""
    words: dict = field(default_factory=dict)
    modules: dict = field(default_factory=dict)
    types: dict = field(default_factory=dict)
    std_words: dict = field(default_factory=dict)
    std_modules: dict = field(default_factory=dict)


def spec_file(crate, module):
    """The file of a module of a crate's specs/, which may lie in a crate below."""
    path = CRATES / crate / 'specs' / (module + '.antt')
    if path.exists():
        return path
    library = CRATES / crate / 'specs/Lib.antt'
    if library.exists():
        for below in re.findall(r'pub use Rattle\.(\w+)\.specs\.%s\b' % module, library.read_text()):
            return spec_file(below, module)
    return None


def module_of(path):
    """The file that a path such as Rattle.CRATE.specs.MODULE names, where it is one of ours."""
    parts = path.split('.')
    if len(parts) == 4 and parts[2] == 'specs':
        return spec_file(parts[1], parts[3])
    return None


@lru_cache(maxsize=None)
def scope_of(file):
    scope = Scope()
    for path, names, other in USE.findall(file.read_text()):
        module = module_of(path)
        if other and module:
            scope.modules[other] = module
        for name in filter(None, (name.strip() for name in names.split(','))):
            if module:
                scope.words[name] = module
            elif '.specs.declared.' in path and (CRATES / path.split('.')[1]).exists():
                scope.types[name] = path.split('.')[1]
    for path, names, other in STD_USE.findall(file.read_text()):
        module = path[1:] + '.' if path[1:] in NAMED_MODULES else ''
        if other:
            scope.std_modules[other] = module
        scope.std_words.update((name.strip(), module + name.strip()) for name in names.split(',') if '◌' not in name)
    if file.suffix == '.antt':
        scope.words.update((name, file) for name in definitions(file))
    return scope


@lru_cache(maxsize=None)
def definitions(file):
    """The definitions of a file of specs/, by their names."""
    found, lines = {}, file.read_text().split('\n')
    starts = [i for i, line in enumerate(lines) if HEAD.match(line)]
    for start, behind in zip(starts, starts[1:] + [len(lines)]):
        first = start
        while first > 0 and lines[first - 1].startswith('--'):
            first -= 1
        end = behind
        while end > start and (not lines[end - 1].strip() or lines[end - 1].startswith('--')):
            end -= 1
        name = HEAD.match(lines[start]).group(1)
        found[name] = Definition(file, name, first + 1, '\n'.join(lines[first:end]))
        if ' data ' in ' ' + lines[start]:
            for line in lines[start + 1:end]:
                variant = re.match(r'  (%s) : ' % NAME, line)
                if variant:
                    found[variant.group(1)] = found[name]
    return found


def without_comments(text):
    return re.sub(r'(?m)(--|//).*$', '', text)


def crate_of(file):
    return file.relative_to(CRATES).parts[0]


@lru_cache(maxsize=None)
def crates_below(crate):
    """The crate and those that it stands on, as crates.txt has them, the nearest first."""
    lines = [line.partition(':') for line in (TOP / 'crates.txt').read_text().split('\n') if ':' in line]
    stands_on = {name: below.split() for name, _, below in lines}
    found, ahead = [], [crate]
    while ahead:
        one = ahead.pop(0)
        if one in stands_on and one not in found:
            found.append(one)
            ahead += stands_on[one]
    return found


@lru_cache(maxsize=None)
def found_in(crate, pattern):
    """The file of a crate's code, or of one below, that the pattern is found in, and what it found."""
    for one in crates_below(crate):
        for path in sorted((CRATES / one / 'src').glob('**/*.rt')):
            found = re.search(pattern, path.read_text(), re.S)
            if found:
                return path, found.group(1)
    return None, ''


def model_of(name, crate):
    """The file of a type, and the clauses that tell what contracts see of its values."""
    path, body = found_in(crate, r'(?m)^impl(?:<[^\n]*?>)? Model for %s\b[^\n]*\{\n(.*?)^\}' % name)
    return path, '\n'.join(re.findall(r'ghost (?:Value|view) = \{(.*?)\};', body, re.S))


def fields_of(name, crate):
    """The file of a type, and the types of its fields."""
    path, body = found_in(crate, r'(?m)^pub struct %s\b[^\n]*\{\n(.*?)^\}' % name)
    if path:
        return path, re.findall(r': (.*),', without_comments(body))
    path, body = found_in(crate, r'(?m)^pub enum %s\b[^\n]*\{\n(.*?)^\}' % name)
    return path, re.findall(r'\((.*)\),', without_comments(body))


class Reading:
    """The definitions that a text rests on, those first that others stand on."""

    def __init__(self):
        self.order, self.seen, self.std = [], set(), set()

    def follow(self, text, scope):
        for word in WORD.findall(without_comments(text)):
            first, _, rest = word.partition('.')
            if first in scope.modules and rest:
                self.define(scope.modules[first], rest.split('.')[0])
            elif first in scope.words:
                self.define(scope.words[first], first)
            elif first in scope.types:
                self.see(first, scope.types[first])
            elif first in scope.std_words:
                self.std.add(scope.std_words[first])
            elif first in scope.std_modules and rest:
                self.std.add(scope.std_modules[first] + rest.split('.')[0])

    def define(self, file, name):
        definition = definitions(file).get(name)
        if definition is None:
            sys.exit('trusted: %s has no %s' % (file.relative_to(TOP), name))
        if definition in self.seen:
            return
        self.seen.add(definition)
        self.follow(definition.text, scope_of(file))
        self.order.append(definition)

    def see(self, name, crate):
        """What contracts see of a type that this crate names."""
        if (name, crate) in self.seen:
            return
        self.seen.add((name, crate))
        path, clauses = model_of(name, crate)
        if path:
            self.follow(clauses, scope_of(path))
            return
        path, fields = fields_of(name, crate)
        for inner in re.findall(r'\b[A-Z]\w+', ' '.join(fields)):
            self.see(inner, crate_of(path))


def contract_of(text, call):
    """The head and the clauses of a call, without its body."""
    found = re.search(r'(?m)^( *)(?:pub )?fn %s\b.*?\n\1\{\}?$' % call, text, re.S)
    return found.group(0) if found else None


def contracts_in(text, owner):
    """The same of the public calls of a type, and of all calls and members of a trait."""
    for head, body in re.findall(r'(?m)^((?:impl|pub trait)\b[^\n]*)\{\n(.*?)^\}', text, re.S):
        if re.match(r'(?:impl(?:<.*?>)? |pub trait )%s\b' % owner, head):
            bare = re.sub(r'(?m)^    \{\n.*?^    \}\n', '    {\n', body, flags=re.S)
            wanted = r'fn|ghost' if head.startswith('pub trait') else r'pub fn'
            yield from re.findall(r'(?m)^    (?:%s) .*?(?:;|\{)$(?=\n\n|\n*\Z|\n        )' % wanted, bare, re.S)


def contracts_of(call):
    """The heads and the clauses of what is listed, each with the file that has it."""
    for file, names in CALLS[call].items():
        path = CRATES / file
        text = path.read_text()
        found = list(contracts_in(text, call)) if names is None else [contract_of(text, name) for name in names]
        if not all(found) or not found:
            sys.exit('trusted: %s has no %s' % (file, names or call))
        yield from ((contract, path) for contract in found)


@lru_cache(maxsize=None)
def reading_of(call):
    reading, contracts = Reading(), list(contracts_of(call))
    for contract, path in contracts:
        reading.follow(contract, scope_of(path))
    for contract, path in contracts:
        head = contract.partition('ensures')[0]
        for name in re.findall(r'\b[A-Z]\w+', '%s %s' % (call, head)):
            reading.see(name, crate_of(path))
    return reading


def list_of(call, order, above):
    """A list of docs/proved.md: the files in the order of their first words, each with its words that the
    lists above it don't have; where these are all of the file's words, or the rest of them, with that."""
    by_file = {}
    for definition in order:
        if definition not in above:
            by_file.setdefault(definition.file, []).append(definition)
    lines = sum(definition.size for definition in order)
    shared = len(above.intersection(order))
    others = '; all on the lists above' if not by_file else '; %d on the lists above' % shared if shared else ''
    rows = ['%s %d definitions, %d lines%s.' % (head_of(call), len(order), lines, others), '']
    for file, words in by_file.items():
        names = ', '.join('`%s`' % word.name for word in words)
        if set(definitions(file).values()) <= above.union(words):
            names = 'all' if above.isdisjoint(definitions(file).values()) else 'the rest'
        private = ' (Private)' if file.read_text().startswith(PRIVATE) else ''
        rows.append('- `%s`%s: %s' % (file.relative_to(CRATES), private, names))
    return rows if by_file else rows[:1]


def head_of(call):
    """How the first line of a list begins."""
    return '**%s**:' % (call.capitalize() if ' ' in call else '`%s`' % call)


def lists():
    """The list of each call."""
    above = set()
    for call in CALLS:
        order = reading_of(call).order
        yield list_of(call, order, above)
        above.update(order)


def unlisted_files():
    """The files of specs/ with words that are on no list, and whose first line doesn't say so."""
    read = {definition for call in CALLS for definition in reading_of(call).order}
    for file in sorted(CRATES.glob('*/specs/*.antt')):
        if not set(definitions(file).values()) <= read and not file.read_text().startswith(PRIVATE):
            yield file


def faults_of_std(text):
    """The words of the standard library that the page doesn't name in its section, and those that it needn't."""
    section = text.partition('\n%s\n' % STD_HEADING)[2].partition('\n## ')[0]
    rows = re.findall(r'(?m)^- ((?:`[^`]+`(?:, )?)+):', section)
    named = {word for row in rows for word in re.findall(r'`([^`]+)`', row)}
    found = {word for call in CALLS for word in reading_of(call).std}
    yield from ('does not name %s' % word for word in sorted(found - named))
    yield from ('names %s, which no clause or definition cites' % word for word in sorted(named - found))


def words_of(text):
    """The text with single spaces between its words."""
    return ' '.join(text.split())


def faults_of_shown(text):
    """The contracts and definitions that the page shows, and that no file has."""
    files = [*CRATES.glob('*/src/**/*.rt'), *CRATES.glob('*/specs/*.antt')]
    there = [words_of(file.read_text()) for file in files]
    for shown in re.findall(r'```(?:rust|antt)\n(.*?)```', text, re.S):
        if not any(words_of(shown) in one for one in there):
            yield 'shows what no file has: %s' % shown.split('\n')[0]


def faults_of_claims():
    """The claims that README.md doesn't make in these words."""
    readme = words_of((TOP / 'README.md').read_text()).lower()
    yield from (claim for claim in CLAIMS if claim.lower() not in readme)


def place_of(block, lines):
    """Where a block of the page begins, and where it ends; both at the end where it isn't there."""
    head = re.match(r'\*\*(?:\d+\. |.*?\*\*)', block[0]).group(0)
    start = next((place for place, line in enumerate(lines) if line.startswith(head)), len(lines))
    end = start + 2
    while end < len(lines) and lines[end].startswith('- '):
        end += 1
    return start, end if end > start + 2 else min(start + 1, len(lines))


def written(text, blocks):
    """The page with these blocks in their places."""
    lines = text.split('\n')
    for block in blocks:
        start, end = place_of(block, lines)
        lines[start:end] = block if start < end else [*block, '']
    return '\n'.join(lines)


def faults_of_blocks(text, blocks):
    """The first line of each block that differs."""
    lines = text.split('\n')
    for block in blocks:
        start, _ = place_of(block, lines)
        for place, wanted in enumerate([*block, ''], start):
            there = lines[place] if place < len(lines) else ''
            if there != wanted:
                yield '%s:%d: there stands\n%s\nand should stand\n%s\n' % (
                    LISTS.relative_to(TOP), place + 1, there, wanted)
                break


def main():
    blocks = [*claims(), *lists()]
    text = LISTS.read_text()
    if sys.argv[1:] == ['--print']:
        print('\n\n'.join('\n'.join(block) for block in blocks))
        return
    if sys.argv[1:] == ['--write']:
        LISTS.write_text(written(text, blocks))
        return
    if len(sys.argv) > 1:
        if sys.argv[1] not in CALLS:
            sys.exit('trusted: there are lists of %s' % ', '.join(CALLS))
        for definition in reading_of(sys.argv[1]).order:
            print('# %s, line %d\n%s\n' % (definition.file.relative_to(TOP), definition.first, definition.text))
        return
    faults = [
        *faults_of_blocks(text, blocks),
        *('%s: a word is on no list, and its first line is not %s' % (file.relative_to(TOP), PRIVATE)
          for file in unlisted_files()),
        *('%s: it %s' % (LISTS.relative_to(TOP), fault) for fault in (*faults_of_std(text), *faults_of_shown(text))),
        *('README.md: it does not say: %s' % claim for claim in faults_of_claims()),
    ]
    for fault in faults:
        print(fault)
    print('reading lists: %s' % ('%d faults' % len(faults) if faults else 'no faults'))
    sys.exit(bool(faults))


if __name__ == '__main__':
    main()
