#!/usr/bin/env python3
"""Runs every block of commands of docs/cookbook.md and fails where one prints anything else than is written there.

    examples/cookbook.py PROGRAM

Blocks whose tools aren't installed are passed over, and named. What stands for `ssh` runs the command here.

It also fails where examples/incident.py makes another file than examples/incident.mrt, or
examples/routes_svg.py another picture than docs/incident.svg, or answers a missing file by more than a
sentence; where examples/slow_answers.py finds other answers over made-up lines; and where the recipes don't
find what they should in a table of 10,000 prefixes, in a file of 100,000 steps, in paths that end in sets,
and in a stream that goes on.
"""
import difflib
import os
import re
import shutil
import signal
import struct
import subprocess
import sys
import tempfile
import time
from pathlib import Path

ROOT = Path(__file__).resolve().parent.parent
COOKBOOK = ROOT / 'docs' / 'cookbook.md'


# A block of commands, and behind it, where they print something, a block of that.
BLOCKS = re.compile(r'^```sh\n(.*?)^```\n(?:\n```text\n(.*?)^```\n)?', re.DOTALL | re.MULTILINE)


# What is installed only where somebody wants it, by what a block names.
TOOLS = {'bzip2': 'bzip2', 'out/cookbook/lines': 'bzip2', 'parallel -j': 'parallel', 'sqlite': 'sqlite3',
         'mawk': 'mawk'}


def blocks(text):
    """Each block of commands, and the output that is written behind it."""
    return BLOCKS.findall(text)


def run(commands, settings):
    """What the commands write to standard output and standard error."""
    return subprocess.run(['bash', '-c', commands], cwd=ROOT, env=settings, stdin=subprocess.DEVNULL,
                          stdout=subprocess.PIPE, stderr=subprocess.STDOUT).stdout


def missing_tool(commands):
    return next((tool for word, tool in TOOLS.items() if word in commands and not shutil.which(tool)), None)


def differing_blocks(text, settings):
    """The blocks that print something else, each with the difference."""
    shutil.rmtree(ROOT / 'out' / 'cookbook', ignore_errors=True)
    for commands, written in blocks(text):
        if tool := missing_tool(commands):
            print('passed over, since %s is not installed: %s ..' % (tool, commands.splitlines()[0]))
            continue
        printed = run(commands, settings).decode()
        if printed != written:
            difference = difflib.unified_diff(written.splitlines(), printed.splitlines(), 'written', 'printed',
                                              lineterm='')
            yield '\n'.join([commands, *difference])


def record(subtype, body):
    """A record of a table (RFC 6396, section 4.3)."""
    return struct.pack('>IHHI', 100, 13, subtype, len(body)) + body


def large_table():
    """A table of 10,000 prefixes of 24 bits and 100 of 25, which are parts of some and have another origin."""
    yield record(1, bytes.fromhex('C0000201 0000 0001 02 C0000201 C0000201 0000FBF4'))
    for number in range(10_100):
        length, origin, bits = (24, 64501, number) if number < 10_000 else (25, 64502, number - 10_000)
        attributes = bytes.fromhex('40010100 40020602010000%04x 400304C0000209' % origin)
        prefix = bytes([length]) + struct.pack('>I', 10 << 24 | bits << 8)[:(length + 7) // 8]
        yield record(2, struct.pack('>I', number) + prefix
                     + struct.pack('>HHIH', 1, 0, 50, len(attributes)) + attributes)


def message(subtype, body):
    """A record of a session with AS numbers of two octets (RFC 6396, section 4.4)."""
    return struct.pack('>IHHI', 100, 16, subtype, len(body)) + body


def many_steps():
    """A faulty record, and 100,000 announcements of a prefix each, all of one second."""
    session = bytes.fromhex('FBF4 FBF5 0000 0001 C0000201 C0000202')
    yield message(1, b'')
    for number in range(100_000):
        attributes = bytes.fromhex('40010100 4002040201FBF4 400304C0000209')
        body = struct.pack('>HH', 0, len(attributes)) + attributes + bytes([32]) + struct.pack('>I', 10 << 24 | number)
        yield message(1, session + b'\xFF' * 16 + struct.pack('>HB', 19 + len(body), 2) + body)


def announcement(segments):
    """An announcement of 10.0.0.0/8 by a path of these segments, of a type (1 set, 2 sequence) and AS numbers."""
    path = b''.join(struct.pack('>BB%dH' % len(numbers), kind, len(numbers), *numbers) for kind, *numbers in segments)
    attributes = bytes.fromhex('40010100 4002%02x' % len(path)) + path + bytes.fromhex('400304C0000209')
    body = struct.pack('>HH', 0, len(attributes)) + attributes + bytes([8, 10])
    session = bytes.fromhex('FBF4 FBF5 0000 0001 C0000201 C0000202')
    return message(1, session + b'\xFF' * 16 + struct.pack('>HB', 19 + len(body), 2) + body)


def wanting_origins(text, folder, settings):
    """The recipe for another origin, if it takes sets for origins, or tells an origin twice."""
    paths = [[(2, 64500, 64501)], [(2, 64500), (1, 65001, 65002)], [(2, 64500, 64502)], [(2, 64500, 64501)],
             [(2, 64500), (1, 65002, 65003)], [(2, 64500, 64502)]]
    (folder / 'sets.mrt').write_bytes(b''.join(map(announcement, paths)))
    recipe = next(commands for commands, _ in blocks(text) if 'now from' in commands)
    printed = run(recipe.replace('examples/incident.mrt', str(folder / 'sets.mrt')), settings).decode()
    if printed != '100 192.0.2.1 10.0.0.0/8 of 64501 now from 64502\n':
        yield 'the recipe for another origin over paths that end in sets:\n' + printed


def wanting_steps(folder, settings):
    """Steps among 100,000, at a time or of a line, if they are others, or take long."""
    steps = folder / 'steps.mrt'
    steps.write_bytes(b''.join(many_steps()))
    line = 'BGP4MP|100|A|192.0.2.1|64500|10.1.56.127/32|64500|IGP|192.0.2.9|0|0||NAG||'
    printed = run("timeout 30 examples/step.py of '%s' %s" % (line, steps), settings).decode()
    if printed != '80000\n':
        yield 'examples/step.py in 100,000 steps:\n' + printed
    printed = run('timeout 30 examples/step.py at 99 100 - <%s' % steps, settings).decode()
    if printed != '0\n100000\n':
        yield 'examples/step.py over a stream of 100,000 steps:\n' + printed


def wanting_parts(folder, settings):
    """The parts of prefixes in a large table, if they are others, or take long."""
    table = folder / 'large.mrt'
    table.write_bytes(b''.join(large_table()))
    printed = run('bgpdump -m %s | timeout 30 examples/ask.py parts' % table, settings).decode()
    if len(printed.splitlines()) != 100 or '|64502|10.0.0.0/24|64501\n' not in printed:
        yield 'examples/ask.py on a table of 10,000 prefixes:\n' + printed


def wanting_stream(text, settings):
    """The recipe for lines of a stream, if it waits for the end of one of thirty seconds."""
    recipe = next(commands for commands, _ in blocks(text) if '-W interactive' in commands)
    if missing_tool(recipe):
        return
    begin = time.monotonic()
    with subprocess.Popen(['bash', '-c', recipe.replace('timeout 3', 'timeout 30')], cwd=ROOT, env=settings,
                          stdout=subprocess.PIPE, start_new_session=True) as program:
        line = program.stdout.readline()
        os.killpg(program.pid, signal.SIGTERM)
    if time.monotonic() - begin > 25 or not line:
        yield 'the recipe for lines of a stream waits for its end'


def wanting_answers(settings):
    """What slow_answers.py says, if answers differ."""
    checked = subprocess.run([ROOT / 'examples' / 'slow_answers.py'], env=settings, capture_output=True, text=True)
    if checked.returncode:
        yield checked.stdout + checked.stderr


def stand_ins(folder, program):
    """bgpdump, and an ssh that runs the command here, as a far shell would."""
    (folder / 'bgpdump').symlink_to(Path(program).resolve())
    ssh = folder / 'ssh'
    ssh.write_text('#!/bin/sh\n# ssh -o BatchMode=yes HOST COMMAND ..\nshift 3\nexec sh -c "$*"\n')
    ssh.chmod(0o755)


def differing_files(folder, settings):
    made = run('examples/incident.py "{0}" && cat "{0}"'.format(folder / 'incident.mrt'), settings)
    if made != (ROOT / 'examples' / 'incident.mrt').read_bytes():
        yield 'examples/incident.py makes another file than examples/incident.mrt'
    drawn = run('examples/routes_svg.py examples/incident.mrt', settings)
    if drawn != (ROOT / 'docs' / 'incident.svg').read_bytes():
        yield 'examples/routes_svg.py makes another picture than docs/incident.svg'
    if run('examples/routes_svg.py missing', settings) != b'bgpdump: cannot open missing\n':
        yield 'examples/routes_svg.py answers a missing file otherwise'


def main():
    if len(sys.argv) != 2:
        sys.exit(__doc__)
    if sys.argv[1] in ('-h', '--help'):
        print(__doc__)
        return
    if not os.path.isfile(sys.argv[1]) or not os.access(sys.argv[1], os.X_OK):
        sys.exit('%s: not a program' % sys.argv[1])
    text = COOKBOOK.read_text()
    with tempfile.TemporaryDirectory() as name:
        folder = Path(name)
        (folder / 'bin').mkdir()
        stand_ins(folder / 'bin', sys.argv[1])
        settings = {**os.environ, 'PATH': str(folder / 'bin') + os.pathsep + os.environ['PATH'], 'LC_ALL': 'C'}
        faults = [*differing_blocks(text, settings), *differing_files(folder, settings),
                  *wanting_parts(folder, settings), *wanting_steps(folder, settings),
                  *wanting_origins(text, folder, settings), *wanting_stream(text, settings), *wanting_answers(settings)]
    if faults:
        sys.exit('\n\n'.join(faults))
    count = sum(not missing_tool(commands) for commands, _ in blocks(text))
    print('%d blocks of commands of docs/cookbook.md print what it says' % count)


main()
