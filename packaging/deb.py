#!/usr/bin/env python3
"""Makes a package for Debian of the built program, its manual page, its completion for bash, the examples
and the documents.

    packaging/deb.py PROGRAM FOLDER

The package is written to the folder as rumpleja_VERSION_amd64.deb. The version is that of the first line
of the program's help, the C library's the newest that the program names. Of the program the names of
its functions are left out, where `strip` is there; what is loaded stays as it is. The same program, in
the same tree, makes the same package: all files are as old as the manual page says.
"""
import gzip
import hashlib
import os
import re
import shutil
import subprocess
import sys
import tempfile
from datetime import datetime, timezone
from email.utils import format_datetime
from pathlib import Path

TOP = Path(__file__).resolve().parent.parent
OWNER = 'Rumpleja maintainers <maintainers@users.noreply.rumpleja.example>'
DOCUMENTS = 'usr/share/doc/rumpleja'

CONTROL = """\
Package: rumpleja
Version: {version}
Architecture: amd64
Maintainer: {owner}
Installed-Size: {kib}
Depends: libc6 (>= {library})
Provides: bgpdump
Conflicts: bgpdump
Replaces: bgpdump
Section: net
Priority: optional
Description: prints MRT files of BGP routers, or steps through them
 Its bgpdump prints the routing tables and messages that BGP routers write
 (MRT files, RFC 6396) as the lines of "bgpdump -m", or plays them forwards
 and backwards over a routing table for each peer. What it writes is proved
 to be what its definitions say. It wants a processor of x86-64-v2.
"""

COPYRIGHT = """\
Rumpleja, a reader of MRT files. Copyright 2026 the owner of Rumpleja.

No licence has been chosen by the owner yet.
"""

CHANGES = """\
rumpleja ({version}) unstable; urgency=low

  * First version.

 -- {owner}  {date}
"""


def version_of(program):
    """What the first line of its help says."""
    text = subprocess.run([program, '--help'], check=True, capture_output=True, text=True).stdout
    return re.match(r"Rumpleja's bgpdump (\d+\.\d+\.\d+): ", text)[1]


def library_of(program):
    """The newest version of the C library whose symbols the program names. It needs no other."""
    octets = program.read_bytes()
    others = set(re.findall(rb'\0(lib[\w+-]+\.so\.\d+)\0', octets)) - {b'libc.so.6', b'libm.so.6'}
    if others:
        sys.exit(f'{program} needs {b", ".join(sorted(others)).decode()}')
    found = {tuple(map(int, it.split(b'.'))) for it in re.findall(rb'\0GLIBC_([\d.]+)(?=\0)', octets)}
    return '.'.join(map(str, max(found)))


def page_date():
    day = re.match(r'\.Dd (.*)', (TOP / 'man/bgpdump.1').read_text())[1]
    return datetime.strptime(day, '%B %d, %Y').replace(tzinfo=timezone.utc)


def put(root, name, octets, mode=0o644):
    file = root / name
    file.parent.mkdir(parents=True, exist_ok=True)
    file.write_bytes(octets)
    file.chmod(mode)


def packed(octets):
    return gzip.compress(octets, 9, mtime=0)


def fill(root, program, version):
    """What is installed."""
    put(root, 'usr/bin/bgpdump', program.read_bytes(), 0o755)
    if shutil.which('strip'):
        subprocess.run(['strip', root / 'usr/bin/bgpdump'], check=True)
    put(root, 'usr/share/man/man1/bgpdump.1.gz', packed((TOP / 'man/bgpdump.1').read_bytes()))
    put(root, 'usr/share/bash-completion/completions/bgpdump', (TOP / 'packaging/bgpdump.bash').read_bytes())
    for file in [TOP / 'README.md', *TOP.glob('docs/*'), *TOP.glob('examples/*')]:
        if file.is_file():
            mode = 0o755 if os.access(file, os.X_OK) else 0o644
            put(root, f'{DOCUMENTS}/{file.relative_to(TOP)}', file.read_bytes(), mode)
    put(root, f'{DOCUMENTS}/copyright', COPYRIGHT.encode())
    changes = CHANGES.format(version=version, owner=OWNER, date=format_datetime(page_date()))
    put(root, f'{DOCUMENTS}/changelog.gz', packed(changes.encode()))


def describe(root, program, version):
    """What dpkg reads: the package's fields, and the sums of its files."""
    files = sorted(it for it in root.rglob('*') if it.is_file())
    sums = ''.join(f'{hashlib.md5(it.read_bytes()).hexdigest()}  {it.relative_to(root)}\n' for it in files)
    kib = sum(-(-it.stat().st_size // 1024) for it in files)
    fields = CONTROL.format(version=version, owner=OWNER, kib=kib, library=library_of(program))
    put(root, 'DEBIAN/md5sums', sums.encode())
    put(root, 'DEBIAN/control', fields.encode())


def main():
    program, folder = Path(sys.argv[1]).resolve(), Path(sys.argv[2])
    version, moment = version_of(program), int(page_date().timestamp())
    with tempfile.TemporaryDirectory() as room:
        root = Path(room, 'rumpleja')
        fill(root, program, version)
        describe(root, program, version)
        for it in [root, *root.rglob('*')]:
            if it.is_dir():
                it.chmod(0o755)
            os.utime(it, (moment, moment))
        package = folder / f'rumpleja_{version}_amd64.deb'
        subprocess.run(['dpkg-deb', '--root-owner-group', '--build', root, package], check=True,
                       env={**os.environ, 'SOURCE_DATE_EPOCH': str(moment)}, stdout=subprocess.DEVNULL)
    print(package)


if __name__ == '__main__':
    if len(sys.argv) != 3:
        sys.exit(__doc__)
    if not shutil.which('dpkg-deb'):
        sys.exit('dpkg-deb makes packages, and is not here')
    main()
