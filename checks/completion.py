#!/usr/bin/env python3
"""Tries the completion for bash, packaging/bgpdump.bash.

    checks/completion.py [PROGRAM]

For each line of words, the last of which is being typed, bash says what may stand in its place; this is
compared with what is typed here. With a PROGRAM, the options that its help names are those that are
offered. Bash runs without a terminal.
"""
import re
import subprocess
import sys
import tempfile
from pathlib import Path

COMPLETION = Path(__file__).resolve().parent.parent / 'packaging/bgpdump.bash'
FILES = ('steps', 'table.mrt', 'two words.mrt', 'updates.mrt')

OPTIONS = ['--help', '--play', '-O', '-m', '-t']
# The words behind the program's name, as bash splits them, and what may stand in place of the last.
CASES = [
    (['-'], OPTIONS),
    (['--'], ['--help', '--play']),
    (['--p'], ['--play']),
    (['-m', '-'], ['--help', '-O', '-t']),
    (['--play', 'steps', '-'], ['--help', '-O', '-t']),
    (['--play', '=', 'steps', '-'], ['--help', '-O', '-t']),
    (['-m', '-t', 'change', '-'], ['--help', '-O']),
    (['-m', '-tchange', '-Oout', '-'], ['--help']),
    (['-m', 'table.mrt', '-'], ['--help', '-O', '-t']),
    (['-t', ''], ['change', 'dump']),
    (['-t', 'c'], ['change']),
    (['-t', 'x'], []),
    (['-td'], ['-tdump']),
    (['-m', ''], list(FILES)),
    (['-m', 'ta'], ['table.mrt']),
    (['-m', 'tw'], ['two words.mrt']),
    (['-m', '-t', 'dump', 'u'], ['updates.mrt']),
    (['-m', 'x'], []),
    (['--play', 's'], ['steps']),
    (['--play', '='], list(FILES)),
    (['--play', '=', 's'], ['steps']),
    (['-O', 'u'], ['updates.mrt']),
    (['-Ou'], ['-Oupdates.mrt']),
    # A value may begin with a hyphen, and so may a file after `--`.
    (['-O', '-'], []),
    (['-m', '--', '-'], []),
    (['-m', '--', 'ta'], ['table.mrt']),
]

# What bash runs: the function that is registered for the name, over the words.
ASK = '''
. "$1" && name=$2 && shift 2
read -r -a registered < <(complete -p "$name")
COMP_WORDS=("$name" "$@") COMP_CWORD=$#
for ((place = 0; place < ${#registered[@]}; place++)); do
    if [[ ${registered[place]} == -F ]]; then "${registered[place + 1]}" "$name"; fi
done
printf '%s\\n' "${COMPREPLY[@]}"
'''


def offered(words, folder, completion=COMPLETION, name='bgpdump'):
    """What may stand in place of the last word, in order."""
    asked = subprocess.run(['bash', '--norc', '-c', ASK, 'bash', completion, name, *words], cwd=folder,
                          capture_output=True, text=True)
    if asked.returncode or asked.stderr:
        return [f'status {asked.returncode}: {asked.stderr}']
    return sorted(filter(None, asked.stdout.split('\n')))


def faults_of_cases(folder):
    for words, wanted in CASES:
        found = offered(words, folder)
        if found != wanted:
            yield f'for {words} it offers {found}, not {wanted}'


def faults_of_options(program):
    """The long name of an option that has two is offered."""
    text = subprocess.run([program, '--help'], check=True, capture_output=True, text=True).stdout
    found = re.findall(r'^ +(?:-\w, )?(--?\w+)(?: <\w+>)?  ', text, re.M)
    if sorted(found) != OPTIONS:
        yield f'the program has the options {sorted(found)}, and {OPTIONS} are offered'


def main():
    with tempfile.TemporaryDirectory() as folder:
        for name in FILES:
            Path(folder, name).touch()
        faults = list(faults_of_cases(folder))
    if len(sys.argv) > 1:
        faults += faults_of_options(Path(sys.argv[1]).resolve())
    for fault in faults:
        print(f'completion: {fault}')
    print(f'completion: {len(faults) or "no"} faults')
    sys.exit(bool(faults))


if __name__ == '__main__':
    main()
