#!/usr/bin/env python3
"""gate.py [--anew] [CRATE ..]: runs `rt ci` and measures what it takes.

Without names the whole gate runs in this checkout, with names these crates and those below them, on a copy. With --anew nothing
is taken from earlier runs; without it the table shows what this run did. A process of the prover is counted for the crate that
it is given, by its task: the crate's own proof, the proof and the building of its tests, or its must-fail edits with the check
that they begin with. Prints a line a crate, the dearest first, in processor minutes, and the whole; the output of `rt ci` goes
to the log file that is named first. The status is that of `rt ci`."""
import argparse
import os
import subprocess
import sys
import tempfile
import time

SECONDS = 1.0   # between two looks at the processes
TASKS = ['proof', 'tests', 'edits']


def processes():
    """The id, the parent's id, the start and the processor seconds of each process that is there."""
    tick = os.sysconf('SC_CLK_TCK')
    for pid in filter(str.isdigit, os.listdir('/proc')):
        try:
            with open('/proc/%s/stat' % pid, 'rb') as file:
                fields = file.read().rsplit(b')', 1)[1].split()
        except OSError:
            continue
        yield int(pid), int(fields[1]), int(fields[19]), (int(fields[11]) + int(fields[12])) / tick


def words_of(pid):
    """The words that a process was started with, none where it has ended."""
    try:
        with open('/proc/%d/cmdline' % pid, 'rb') as file:
            return file.read().decode(errors='replace').split('\0')
    except OSError:
        return []


def task_of(words):
    """The crate that the words of a prover name, and what is done for it, or None."""
    if '--crate-name' not in words:
        return None
    crate = words[words.index('--crate-name') + 1]
    if '--test' in words:
        return crate, 'tests'
    if words[1:2] == ['check']:
        return crate, 'edits'
    return crate, 'proof'


class Measured:
    """The processor seconds of each task, as far as they were seen."""

    def __init__(self):
        self.tasks = {}     # by the process and its start: the task, and its seconds
        self.started = time.time()

    def look(self, root):
        """Takes the seconds of all processes below the root."""
        below = {root}
        seen = sorted(processes(), key=lambda process: process[2])
        for _ in range(4):
            below.update(pid for pid, parent, _, _ in seen if parent in below)
        for pid, _, start, seconds in seen:
            if pid not in below or pid == root:
                continue
            known = self.tasks.get((pid, start))
            task = known[0] if known else task_of(words_of(pid))
            if task:
                self.tasks[pid, start] = task, seconds

    def minutes(self):
        """The processor minutes of each crate by its tasks."""
        table = {}
        for (crate, task), seconds in self.tasks.values():
            row = table.setdefault(crate, dict.fromkeys(TASKS, 0.0))
            row[task] += seconds / 60
        return table


def tell(measured):
    """Prints the table, as a page of docs/ has it."""
    table = measured.minutes()
    print('| crate | %s | together |' % ' | '.join(TASKS))
    print('|---|%s' % ('---|' * (len(TASKS) + 1)))
    for crate, row in sorted(table.items(), key=lambda item: -sum(item[1].values())):
        print('| `%s` | %s | %.1f |' % (crate, ' | '.join('%.1f' % row[task] for task in TASKS), sum(row.values())))
    sums = [sum(row[task] for row in table.values()) for task in TASKS]
    print('| all | %s | %.1f |' % (' | '.join('%.1f' % one for one in sums), sum(sums)))
    print('%.1f minutes by the clock, on %d processors' % ((time.time() - measured.started) / 60, os.cpu_count() or 1))


def main():
    words = argparse.ArgumentParser(description=__doc__, formatter_class=argparse.RawDescriptionHelpFormatter)
    words.add_argument('--anew', action='store_true')
    words.add_argument('crates', nargs='*')
    given = words.parse_args()
    log, path = tempfile.mkstemp(prefix='gate-', suffix='.log')
    print('the output of rt ci: %s' % path, flush=True)
    measured = Measured()
    command = ['rt', 'ci', *(['--anew'] if given.anew else []), *given.crates]
    top = os.path.join(os.path.dirname(os.path.abspath(__file__)), '..')
    with subprocess.Popen(command, stdin=subprocess.DEVNULL, stdout=log, stderr=log, cwd=top) as gate:
        while gate.poll() is None:
            measured.look(gate.pid)
            time.sleep(SECONDS)
    tell(measured)
    return gate.returncode


if __name__ == '__main__':
    sys.exit(main())
