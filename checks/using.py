"""What runs of a program use: see usage.c."""
import re
import shutil
import subprocess
from functools import reduce
from pathlib import Path
from typing import NamedTuple

from calling import compiler

SOURCE = Path(__file__).resolve().parent / 'usage.c'
MIB = 1024
# The most of `-m` over records of an entry or a message each, whatever these are, in KiB.
PEAK_OF_LINES = 4 * MIB


class Used(NamedTuple):
    """What a run used, its peak in KiB and its processor time in milliseconds."""
    status: int
    peak: int
    time: float

    def joined(self, other):
        """The worse status, the larger peak and the lesser time."""
        return Used(max(self.status, other.status), max(self.peak, other.peak), min(self.time, other.time))


class Runs:
    """Runs of a program over files that are made in a folder."""

    def __init__(self, program, folder):
        self.program, self.folder = program, folder
        self.launcher, self.told = folder / 'usage', folder / 'told'
        subprocess.run([compiler(), '-O1', '-o', self.launcher, SOURCE], check=True)

    def used(self, words):
        subprocess.run([self.launcher, self.told, self.program, *words], stdin=subprocess.DEVNULL,
                       stdout=subprocess.DEVNULL, check=True)
        status, peak, microseconds = map(int, self.told.read_text().split())
        return Used(status, peak, microseconds / 1000)

    def words_over(self, records, script=None, options=()):
        """The words of a run over the records, listed with these options or played."""
        file, words = self.folder / 'made.mrt', ['-m', *options]
        with file.open('wb') as out:
            out.writelines(records)
        if script:
            (self.folder / 'script').write_text(script)
            words = ['--play', str(self.folder / 'script')]
        return [*words, str(file)]

    def over(self, records, script=None, runs=1, options=()):
        """What runs over the records used: the largest peak and the least time."""
        words = self.words_over(records, script, options)
        return reduce(Used.joined, [self.used(words) for _ in range(runs)])

    def instructions_over(self, records, script=None, options=()):
        """How many instructions a run over the records takes; None where valgrind isn't there."""
        if not shutil.which('valgrind'):
            return None
        done = subprocess.run(['valgrind', '--tool=callgrind', '--callgrind-out-file=/dev/null', self.program,
                               *self.words_over(records, script, options)], stdin=subprocess.DEVNULL,
                              stdout=subprocess.DEVNULL, stderr=subprocess.PIPE, text=True, check=True)
        return int(re.search(r'Collected : (\d+)', done.stderr)[1])
