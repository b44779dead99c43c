#!/usr/bin/env python3
"""Counts in the program and its libraries what is to become fewer.

    checks/sizes.py [--list]

Each count is compared with the one that is noted here: where there is more of it the change is to be
mended, where there is less the new count is to be noted. With --list it tells what it counts. The
status is 1 where a count differs.
"""
import re
import sys
from pathlib import Path

TOP = Path(__file__).resolve().parent.parent
NOTED = {
    # A whole run of a script, one of its lines, two for a line of a table, and the lines of one route.
    'functions of more than five parameters': 5,
    'clauses of more than 200 characters': 1,
    'files of more than 480 lines': 0,
}
# Programs and libraries that only check or measure.
CHECKS = ('row_parts', 'row_stores', 'row_values', 'rows', 'store_bench', 'test_devices', 'workload_inputs',
          'workloads')

FUNCTION = re.compile(r'^ *(?:pub(?:\([^)]*\))? )?(?:(?:const|final|unsafe) )*fn (\w+)', re.M)
CLAUSE = re.compile(r'\b(?:requires|ensures)\b[^{]*\{((?:[^{}]|\{[^{}]*\})*)\}')


def files_of_product():
    """The files of the program and its libraries."""
    for crate in sorted((TOP / 'crates').iterdir()):
        if crate.name not in CHECKS and not crate.name.endswith('_tests'):
            yield from sorted((crate / 'src').rglob('*.rt'))


def texts():
    for file in files_of_product():
        yield file.relative_to(TOP), file.read_text()


def parts_behind(text, start):
    """The parts between the bracket that stands there and its end, and where it ends. An arrow is no
    bracket."""
    depth, parts, is_begun, place = 0, 0, False, start
    for place in range(start, len(text)):
        letter = text[place]
        if letter in '(<[{':
            depth += 1
        elif letter in ')>]}' and text[place - 1] not in '-=':
            depth -= 1
        if depth == 0:
            break
        if letter == ',' and depth == 1:
            is_begun = False
        elif place > start and not letter.isspace() and not is_begun:
            parts, is_begun = parts + 1, True
    return parts, place + 1


def functions():
    """Each function: its file, its name, and how many parameters it has, `self` among them."""
    for file, text in texts():
        for it in FUNCTION.finditer(text):
            _, start = parts_behind(text, it.end()) if text[it.end()] == '<' else (0, it.end())
            yield file, it[1], parts_behind(text, start)[0]


def functions_of_many_parameters():
    return [f'{file}: {name}' for file, name, count in functions() if count > 5]


def long_clauses():
    return [f'{file}: {clause[:60].strip()}' for file, text in texts()
            for clause in (' '.join(it.split()) for it in CLAUSE.findall(text)) if len(clause) > 200]


def long_files():
    return [f'{file}: {text.count(chr(10))} lines' for file, text in texts() if text.count('\n') > 480]


def main():
    found = zip(NOTED, (functions_of_many_parameters(), long_clauses(), long_files()))
    differs = False
    for what, places in found:
        if '--list' in sys.argv:
            print(f'{what}:', *places, sep='\n  ')
        if len(places) != NOTED[what]:
            differs = True
            print(f'sizes: {len(places)} {what}, where {NOTED[what]} are noted')
    if not differs:
        print('sizes: as noted')
    sys.exit(differs)


main()
