"""Calls of a program with requests for memory refused, or reads or writes failing: see refusing.c."""
import mmap
import os
import shutil
import struct
import subprocess
import sys
from dataclasses import dataclass
from pathlib import Path

SOURCE = Path(__file__).resolve().parent / 'refusing.c'

# The seconds that a call may last, and how many calls all requests are refused from on.
LONGEST_CALL = 10
ALL = 1 << 62


@dataclass
class Ended:
    """How a call ended, how many requests, reads and writes it made, and how many of them failed.

    Of a program that marks its calls: how many it began, how often it went on where each request is
    refused, and how many it made there. Of the requests that failed how many only gave room back, and how
    many octets of memory the program held when its input ended.
    """
    status: int
    out: bytes
    err: bytes
    made: dict
    failed: int
    begun: int
    unaided: int
    asked: int
    fewer: int
    held: int


def compiler():
    """A C compiler of this machine."""
    for name in (os.environ.get('CC'), 'cc', 'clang'):
        if name and shutil.which(name):
            return name
    sys.exit('refusals: neither cc nor clang is there')


class Calls:
    """Calls of a program with something failing in them, where it marks them in parts of them alone."""

    def __init__(self, program, folder, marked=False):
        self.program, self.folder, self.marked = program, folder, marked
        self.library, self.counts = folder / 'refusing.so', folder / 'counts'
        subprocess.run([compiler(), '-O1', '-shared', '-fPIC', '-o', self.library, SOURCE, '-ldl'],
                       check=True)

    def run(self, words, kind='memory', first=0, last=0, error=0, given=os.devnull):
        """A call with these words, which is given a file, or nothing, as standard input."""
        self.counts.write_bytes(bytes(mmap.PAGESIZE))
        environment = dict(os.environ, LD_PRELOAD=str(self.library), REFUSING_COUNTS=str(self.counts),
                           REFUSING_KIND=kind, REFUSING_FIRST=str(first), REFUSING_LAST=str(last),
                           REFUSING_ERROR=str(error), REFUSING_MARKED=str(int(self.marked)))
        with open(given, 'rb') as octets:
            done = subprocess.run([self.program, *words], env=environment, stdin=octets, capture_output=True,
                                  timeout=LONGEST_CALL, check=False)
        *made, failed, begun, unaided, asked, fewer, _, held = struct.unpack('10q', self.counts.read_bytes()[:80])
        return Ended(done.returncode, done.stdout, done.stderr, dict(zip(('memory', 'read', 'write'), made)), failed,
                     begun, unaided, asked, fewer, held)
