"""Where the sources make a want of memory, or hand one on.

No contract can say that memory was really refused: a body that answers a want of memory where there is plenty is
proved. It is seen in the sources. std alone makes an `AllocError`, and a fault or outcome `Memory` is made of one, or of
another such fault, in the functions below and nowhere else.
"""
import re
from pathlib import Path

TOP = Path(__file__).resolve().parent.parent

# Programs and libraries that only check or measure.
CHECKS = ('row_parts', 'row_stores', 'row_values', 'rows', 'store_bench', 'test_devices', 'workload_inputs',
          'workloads')

# How many stand in each function, and what it makes them of.
KNOWN = {
    # Of std's refusal of an allocation: `?` calls these.
    ('bgp_paths/src/fault.rt', 'from'): 2,
    ('mrt_frames/src/fault.rt', 'from'): 1,
    ('rib_player/src/player.rt', 'from'): 1,
    ('bgpdump_command_line/src/usage.rt', 'from'): 1,
    ('bgpdump/src/ending.rt', 'from'): 1,
    # Of that, and of the fault of what a record's body holds.
    ('mrt_wire/src/decoding.rt', 'from'): 2,
    # Of a refusal of what judging a record asked for.
    ('mrt_wire/src/source.rt', 'next_of_record'): 1,
    # Of std's refusal, of a source's fault or one that is spent, which no run asks again, and of that of writing.
    ('bgpdump_lines/src/fault.rt', 'from'): 3,
    # Of the only fault that an event which is played may have.
    ('bgpdump_tool/src/session.rt', 'step_forward'): 1,
    ('bgpdump_tool/src/execution/moves.rt', 'play_session_loss'): 1,
    # Of an error of `clap` that says so.
    ('bgpdump_command_line/src/command_line.rt', 'fault_of_parse_error'): 1,
    # Of an error of the system, or of std's readers, that says so.
    ('bgpdump/src/files.rt', 'outcome_of_setup_error'): 1,
    ('bgpdump/src/files.rt', 'ending_of_open_error'): 1,
    ('bgpdump/src/files.rt', 'ending_of_read_error'): 1,
    # The status of words that were refused for it.
    ('bgpdump/src/ending.rt', 'status'): 1,
}

USE = re.compile(r'^[ ]*(?:pub(?:\([^)]*\))? )?use\b[^;]*;', re.M)
CLAUSE = re.compile(r'^[ ]*(?:requires|ensures|ghost)\b[^{;]*\{', re.M)
ENUM = re.compile(r'\benum \w+[^{]*\{')
TOKEN = re.compile(r'\b(?:AllocError|AllocFailed|Memory)\b')


def blank(text):
    """As long a text, on as many lines, in which nothing stands."""
    return re.sub(r'[^\n]', ' ', text)


def end_of_braces(text, start):
    """Where the braces end that begin there."""
    depth = 0
    for place in range(start, len(text)):
        depth += {'{': 1, '}': -1}.get(text[place], 0)
        if depth == 0:
            return place + 1
    return len(text)


def without_braces(pattern, text):
    """The text without what the pattern begins, to the end of its braces."""
    found = pattern.search(text)
    while found:
        end = end_of_braces(text, found.end() - 1)
        text = text[:found.start()] + blank(text[found.start():end]) + text[end:]
        found = pattern.search(text, end)
    return text


def without_pattern(line):
    """A line without the pattern of an arm, or of a `let`."""
    arm = re.match(r'[^"]*?=>', line) or re.match(r' *\|.*', line)
    line = blank(arm[0]) + line[arm.end():] if arm else line
    return re.sub(r'\blet [^=]*=(?!=)', lambda it: blank(it[0]), line)


def code_of(text):
    """The text of a file without comments, texts, imports, contracts, declarations of faults and patterns."""
    for pattern in (re.compile(r'//.*'), re.compile(r'"(?:[^"\\]|\\.)*"'), USE):
        text = pattern.sub(lambda it: blank(it[0]), text)
    text = without_braces(ENUM, without_braces(CLAUSE, text))
    return '\n'.join(without_pattern(line) for line in text.split('\n'))


def is_type(code, found):
    """Whether a type is named there, or std's own conversion."""
    behind, before = code[found.end():].lstrip(), code[:found.start()].rstrip()
    return behind.startswith(('>', ')>', '<', '::from')) or before.endswith(':') and not before.endswith('::')


def wants_of(text):
    """The places of a file where a want of memory is made."""
    code = code_of(text)
    return [it.start() for it in TOKEN.finditer(code) if not is_type(code, it)]


def renamed(text):
    """The places where an import gives one of these words another name, or takes it out of its type."""
    for found in USE.finditer(text):
        if re.search(r'\b(?:AllocError|AllocFailed) as\b|\bMemory\b', found[0]):
            yield found.start()


def faults_of_wants(item_before):
    """What makes a want of memory and isn't known, by its line, and what is known and makes none."""
    found = {}
    for crate in sorted((TOP / 'crates').iterdir()):
        if crate.name in CHECKS or crate.name.endswith('_tests'):
            continue
        for file in sorted((crate / 'src').rglob('*.rt')):
            text, name = file.read_text(), str(file.relative_to(TOP / 'crates'))
            for place in renamed(text):
                yield file, f'line {text.count(chr(10), 0, place) + 1} renames a want of memory'
            for place in wants_of(text):
                function = item_before(text, place)[0]
                found.setdefault((name, function), []).append((file, text.count('\n', 0, place) + 1))
    for where, places in found.items():
        for file, line in places[KNOWN.get(where, 0):]:
            yield file, f'line {line} makes a want of memory in {where[1]}, and is not known to hand one on'
    for (name, function), count in KNOWN.items():
        if len(found.get((name, function), [])) < count:
            yield TOP / 'crates' / name, f'{function} is known to make {count} wants of memory, and makes fewer'
