#!/usr/bin/env python3
"""Makes the package for Debian and tries it, and what `make install` copies.

    checks/package.py PROGRAM

Its files are unpacked into a folder and run there over the examples that it brings; what is loaded of
its program is that of PROGRAM. What dpkg-deb says of it is compared with what is typed here; where
lintian is there, it finds no errors. Where dpkg-deb is not there, no package is made. `make install`
copies the program into a folder, by another name, with the files that the package has.
"""
import hashlib
import re
import shutil
import struct
import subprocess
import sys
import tempfile
from pathlib import Path

from completion import offered

TOP = Path(__file__).resolve().parent.parent
COMPLETIONS = 'share/bash-completion/completions'
DOCUMENTS = ('README.md', 'docs/cookbook.md', 'docs/DIFFERENCES.md', 'docs/incident.svg', 'examples/step.py')
FIELDS = {
    'Package': r'rumpleja',
    'Version': r'1\.0\.0',
    'Architecture': r'amd64',
    'Depends': r'libc6 \(>= 2\.\d+\)',
    'Provides': r'bgpdump',
    'Conflicts': r'bgpdump',
    'Replaces': r'bgpdump',
}


def run(*words, **more):
    return subprocess.run([str(it) for it in words], capture_output=True, text=True, **more)


def package_in(folder, program):
    made = run(TOP / 'packaging/deb.py', program, folder)
    if made.returncode:
        sys.exit(f'package: {made.stderr}')
    return Path(made.stdout.strip())


def loaded(octets):
    """The parts of a program of 64 bits that are loaded, without its header, which tells where others are."""
    table, = struct.unpack_from('<Q', octets, 32)
    size, count = struct.unpack_from('<HH', octets, 54)
    for at in range(table, table + size * count, size):
        kind, _, start, address, _, length = struct.unpack_from('<IIQQQQ', octets, at)
        if kind == 1:
            yield address, octets[max(start, 64):start + length]


def faults_of_fields(package):
    for field, pattern in FIELDS.items():
        text = run('dpkg-deb', '-f', package, field).stdout.strip()
        if not re.fullmatch(pattern, text):
            yield f'its field {field} is {text!r}'


def faults_of_library(package, program):
    """The C library that it depends on is the newest that the program's symbols name."""
    table = run('objdump', '-T', program)
    if table.returncode:
        return
    newest = max(re.findall(r'GLIBC_([\d.]+)', table.stdout), key=lambda it: [*map(int, it.split('.'))])
    text = run('dpkg-deb', '-f', package, 'Depends').stdout.strip()
    if text != f'libc6 (>= {newest})':
        yield f'it depends on {text}, and the program on {newest} of the C library'


def faults_of_list(package):
    for line in run('dpkg-deb', '-c', package).stdout.splitlines():
        mode, owner = line.split()[:2]
        if owner != 'root/root':
            yield f'it has an owner other than root: {line}'
        if mode not in ('drwxr-xr-x', '-rw-r--r--', '-rwxr-xr-x'):
            yield f'it has another mode: {line}'


def faults_of_completion(file, folder):
    """Bash completes the words of the program that has the file's name."""
    found = offered(['-t', ''], folder, file, file.name)
    if found != ['change', 'dump']:
        yield f'its completion for {file.name} offers {found}'


def faults_of_install(program, room):
    made = run('make', '-s', '-C', TOP, 'install', f'PROGRAM={program}', f'DESTDIR={room}', 'NAME=rumpleja')
    if made.returncode:
        yield f'make install: {made.stderr}'
        return
    below = room / 'usr/local'
    if (below / 'bin/rumpleja').read_bytes() != program.read_bytes():
        yield 'make install copies another program'
    for name in ('share/man/man1/rumpleja.1', *(f'share/doc/rumpleja/{it}' for it in DOCUMENTS)):
        if not (below / name).is_file():
            yield f'make install copies no {name}'
    yield from faults_of_completion(below / COMPLETIONS / 'rumpleja', room)


def faults_of_files(package, program, room):
    """What it brings is what it says, and runs where it was unpacked."""
    run('dpkg-deb', '-x', package, room / 'files', check=True)
    run('dpkg-deb', '-e', package, room / 'control', check=True)
    sums = dict(reversed(it.split('  ')) for it in (room / 'control/md5sums').read_text().splitlines())
    found = {str(it.relative_to(room / 'files')): hashlib.md5(it.read_bytes()).hexdigest()
             for it in (room / 'files').rglob('*') if it.is_file()}
    if sums != found:
        yield f'its sums differ: {sorted(set(sums.items()) ^ set(found.items()))}'
    installed = room / 'files/usr/bin/bgpdump'
    if list(loaded(installed.read_bytes())) != list(loaded(program.read_bytes())):
        yield 'its program is another one'
    documents = room / 'files/usr/share/doc/rumpleja'
    shown = run(documents / 'examples/demo.sh', installed)
    if shown.returncode:
        yield f'over its examples: {shown.stderr}'
    for name in (*DOCUMENTS, 'copyright', 'changelog.gz'):
        if not (documents / name).is_file():
            yield f'it has no {name}'
    if not (room / 'files/usr/share/man/man1/bgpdump.1.gz').is_file():
        yield 'it has no manual page'
    yield from faults_of_completion(room / 'files/usr' / COMPLETIONS / 'bgpdump', room)


def faults_of_lint(package):
    if shutil.which('lintian'):
        yield from re.findall(r'^E: .*', run('lintian', '--allow-root', package).stdout, re.M)


def faults_of_package(program, room):
    if not shutil.which('dpkg-deb'):
        print('package: dpkg-deb is not here, no package tried')
        return
    again = room / 'again'
    again.mkdir()
    package, remade = (package_in(it, program) for it in (room, again))
    yield from faults_of_fields(package)
    yield from faults_of_library(package, program)
    yield from faults_of_list(package)
    yield from faults_of_files(package, program, room)
    yield from faults_of_lint(package)
    if package.read_bytes() != remade.read_bytes():
        yield 'made again, it is another one'


def main():
    program = Path(sys.argv[1]).resolve()
    with tempfile.TemporaryDirectory() as folder:
        room, installed = Path(folder, 'package'), Path(folder, 'installed')
        room.mkdir()
        faults = [*faults_of_package(program, room), *faults_of_install(program, installed)]
    for fault in faults:
        print(f'package: {fault}')
    print(f'package: {len(faults) or "no"} faults')
    sys.exit(bool(faults))


if __name__ == '__main__':
    main()
