"""What the scripts of this folder share: how the program is run, how what it left is compared, how work goes side by side, and
how a script tells what it found."""
import argparse
import collections
import concurrent.futures
import contextlib
import dataclasses
import os
import subprocess
import sys
import tempfile
import time

TOP = os.path.join(os.path.dirname(os.path.abspath(__file__)), '..')
INTERNAL_ERROR = 70         # the status that no input may have: an invariant of the compiler is broken
SECONDS = 120       # the most that a run of the program may take
SHOWN = 300         # bytes of a text that are shown
BEFORE = 40         # of these before the first byte that differs


@dataclasses.dataclass
class Left:
    """What a run of the program left, or what it should leave."""
    output: bytes = b''
    lines: bytes = b''
    status: int = 0


def text_of(*path):
    """The text of a file of the repository."""
    with open(os.path.join(TOP, *path), encoding='utf-8') as file:
        return file.read()


def run(words, folder, seconds=SECONDS, **how):
    """Runs a program in a folder, with no input where none is told, and gives what it left within so many seconds."""
    if 'input' not in how:
        how.setdefault('stdin', subprocess.DEVNULL)
    how.setdefault('stdout', subprocess.PIPE)
    how.setdefault('stderr', subprocess.PIPE)
    ended = subprocess.run(words, cwd=folder, timeout=seconds, **how)
    return Left(ended.stdout or b'', ended.stderr or b'', ended.returncode)


@contextlib.contextmanager
def folder_with(files):
    """A new folder that holds these files, given as bytes by their names."""
    with tempfile.TemporaryDirectory() as folder:
        for name, text in files.items():
            path = os.path.join(folder, name)
            os.makedirs(os.path.dirname(path), exist_ok=True)
            with open(path, 'wb') as file:
                file.write(text)
        yield folder


def label(case):
    """The name by which a case of the table is told and found."""
    return '%s (%s)' % (case.name, case.subject)


def shown(text, other):
    """A text as it is shown beside another: of a long one what stands around the first byte that differs."""
    if len(text) <= SHOWN:
        return repr(text)
    at = next((at for at, pair in enumerate(zip(text, other)) if pair[0] != pair[1]), min(len(text), len(other)))
    start = max(at - BEFORE, 0)
    return '%d bytes, from byte %d on %r' % (len(text), start, text[start:start + SHOWN])


def difference(wanted, left, output_may_be_cut=False):
    """Where what was left is something else than what was wanted, or None."""
    told = []
    output = wanted.output[:len(left.output)] if output_may_be_cut else wanted.output
    for what, one, other in (('output', output, left.output), ('lines on err', wanted.lines, left.lines)):
        if one != other:
            told.append('%s: expected %s, and came %s' % (what, shown(one, other), shown(other, one)))
    if wanted.status != left.status:
        told.append('status: expected %d, and came %d' % (wanted.status, left.status))
    return '; '.join(told) or None


def processors():
    """How many processors this process may use."""
    return len(os.sched_getaffinity(0)) if hasattr(os, 'sched_getaffinity') else os.cpu_count() or 1


def side_by_side(work, items):
    """What `work` gives for each item, in their order, from a process for each processor. Work that takes too long gives
    `Late`."""
    items = list(items)
    with concurrent.futures.ProcessPoolExecutor(min(processors(), len(items)) or 1) as pool:
        waited = [pool.submit(within_time, work, item) for item in items]
        try:
            for future in waited:
                yield future.result()
        finally:
            pool.shutdown(cancel_futures=True)


def within_time(work, item):
    """What the work gives for the item."""
    try:
        return work(item)
    except subprocess.TimeoutExpired as error:
        return Late('no end within %d seconds' % error.timeout)


class Late(str):
    """What is given for work that took too long: the text that says so."""


class Report:
    """Counts what was tried, and prints what failed and how far the trying is."""

    def __init__(self):
        self.passed = self.failed = 0
        self.left_out = collections.Counter()
        self.missing = []
        self.name, self.total, self.begun, self.before = '', 0, 0.0, (0, 0)
        self.is_terminal = sys.stdout.isatty()

    def part(self, name, total):
        """Begins a part of so many tries, or of 0 where that isn't known."""
        self.close_part()
        self.name, self.total, self.begun, self.before = name, total, time.monotonic(), (self.passed, self.failed)
        self.tell()

    def close_part(self):
        """Tells what the part that was begun came to."""
        passed, failed = self.passed - self.before[0], self.failed - self.before[1]
        if self.name and passed + failed:
            self.line('%s: %d passed, %d failed, %.0f seconds' % (self.name, passed, failed, time.monotonic() - self.begun))
        self.name = ''

    def tell(self, tried=None):
        """Writes anew how far the part is, on a terminal: by what was counted, or by so many that were tried."""
        if self.is_terminal and self.name:
            tried = self.passed + self.failed - sum(self.before) if tried is None else tried
            of = ' of %d' % self.total if self.total else ''
            print('\r\033[K%s: %d%s' % (self.name, tried, of), end='', flush=True)

    def line(self, text):
        """Prints a line of its own."""
        print('%s%s' % ('\r\033[K' if self.is_terminal else '', text), flush=True)

    def count(self, name, wrong):
        """Counts a try, and prints what is wrong with it where something is."""
        if wrong is None:
            self.passed += 1
        else:
            self.failed += 1
            self.line('FAILED %s: %s' % (name, wrong))
        self.tell()

    def leave_out(self, why, count=1):
        """Counts what isn't tried, by the reason."""
        if count:
            self.left_out[why] += count

    def lacks(self, tool, what):
        """Notes a tool that is missing, and what isn't tried for it."""
        text = '%s is missing, so %s' % (tool, what)
        if text not in self.missing:
            self.missing.append(text)

    def close(self):
        """Prints what was left out and the last line, and gives the status. To have tried nothing is a failure."""
        self.close_part()
        for why, count in self.left_out.items():
            self.line('left out: %d %s' % (count, why))
        for text in self.missing:
            self.line(text)
        if self.passed + self.failed == 0:
            self.line('nothing was tried')
            self.failed = 1
        self.line('%d passed, %d failed' % (self.passed, self.failed))
        return 1 if self.failed else 0


def of_script(about, try_all):
    """What a script does that is called as `PROGRAM [--only WORD]`: tries what it has whose name holds the word, and gives the
    status."""
    words = argparse.ArgumentParser(description=about, formatter_class=argparse.RawDescriptionHelpFormatter)
    words.add_argument('program')
    words.add_argument('--only', default='')
    given = words.parse_args()
    told = Report()
    try_all(os.path.abspath(given.program), told, given.only)
    return told.close()
