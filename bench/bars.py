#!/usr/bin/env python3
"""bars.py [--program PROGRAM] [--rounds N] [--scale PERCENT] [--only WORD] [--processor] [--table]

Measures all that has a bar, and prints one table: what is measured, its figure, that of what it is held against, the ratio of the
two, and the bar.

- The five modules of `machine.py` and those of the programs of the folder `iters` in `sather exec`, beside `wasm-interp` of wabt:
  how many times as fast they are.
- The programs of `iters` by `sather run`, beside the generators of Python, and their modules in V8, beside those of JavaScript; the
  modules of the programs of `routines` in V8, beside JavaScript: how many times as long they take.
- The steps of a round of a loop, of a resumption, of a start and a release; the bytes of a module that prints a line.
- A module of 60 MiB that is decoded and validated, and a source of 4 MiB that is checked: seconds and mebibytes.

A time is the best of N runs, 3 without --rounds, the start of the process included. What is held side by side has to print or give
the same. --scale makes the five modules run that many percent of their rounds. --only measures what has a name with a word in it.
With --processor a time is what a run takes of the processors, all its threads together: on a machine with other work that says more.
--table prints the rows as docs/BENCHMARKS.md has them. What needs a tool that is missing is left out, and that is told. The status
is 1 where a bar is missed or a run fails."""
import argparse
import os
import re
import resource
import shutil
import subprocess
import sys
import tempfile

import checker
import iters
import machine
import routines
from routines import Failure

HELLO = 'class MAIN is main is #OUT + "Hello\\n"; end; end;'
FOLDERS = [('iters', iters), ('routines', routines)]
HEAD = ('what', 'measured', 'beside', 'ratio', 'bar')


class Row:
    """What is measured: its figure, the figure beside it if there is one, and the bar of their ratio or of the figure itself."""
    def __init__(self, name, value, unit, bar, beside=None, is_speed=False):
        self.name, self.value, self.unit, self.bar, self.beside = name, value, unit, bar, beside
        self.held = value if beside is None else beside / value if is_speed else value / beside
        self.is_well = self.held >= bar if is_speed else self.held <= bar
        self.held_to = unit if beside is None else 'times as fast' if is_speed else 'times as long'
        self.sign = 'at least' if is_speed else 'at most'

    def cells(self):
        """The cells of the row."""
        def shown(value):
            return '-' if value is None else '%.2f %s' % (value, self.unit) if self.unit == 's' else '%.0f %s' % (value, self.unit)
        ratio = '-' if self.beside is None else '%.2f' % self.held
        bar = '%s %g %s%s' % (self.sign, self.bar, self.held_to, '' if self.is_well else ': missed')
        return self.name, shown(self.value), shown(self.beside), ratio, bar


def printed(cells, is_table):
    """Prints the cells of a row, or of the head."""
    if is_table:
        print('| %s |' % ' | '.join(cells), flush=True)
    else:
        print('%-52s %12s %12s %7s   %s' % cells, flush=True)


def processor_seconds():
    """What the runs so far have taken of the processors."""
    used = resource.getrusage(resource.RUSAGE_CHILDREN)
    return used.ru_utime + used.ru_stime


def mebibytes(words, folder):
    """The most memory that a run has at a time."""
    run = subprocess.Popen(words, cwd=folder, stdin=subprocess.DEVNULL, stdout=subprocess.DEVNULL, stderr=subprocess.DEVNULL)
    _, status, usage = os.wait4(run.pid, 0)
    run.returncode = os.waitstatus_to_exitcode(status)
    if run.returncode != 0:
        raise Failure('%s ended with status %d' % (' '.join(words[:2]), run.returncode))
    return usage.ru_maxrss / 1024


def against_wabt(name, folder, program, rounds):
    """The row of the module `m` in both machines. What `main` gives is the status of `sather exec`."""
    seconds, _, result = machine.run_sather(program, folder, rounds)
    beside, ended = machine.best(['wasm-interp', 'm', '--dummy-import-func', '--run-all-exports'], folder, rounds)
    given = re.search(rb'^main\(\) =>(?: i32:(\d+))?$', ended.stdout, re.MULTILINE)
    if not given or int(given.group(1) or 0) != result:
        raise Failure('sather gives %d, and wasm-interp %r' % (result, ended.stdout[-80:]))
    return Row(name, seconds, 's', 4, beside, is_speed=True)


def module_of_text(name, text, full, program, rounds, folder):
    """The row of one of the five modules."""
    with open(os.path.join(folder, 'm.wat'), 'w') as file:
        file.write(text.replace('{rounds}', str(full)))
    subprocess.run(['wat2wasm', 'm.wat', '-o', 'm'], cwd=folder, check=True)
    return against_wabt('`exec` of %s beside `wasm-interp`' % name, folder, program, rounds)


def module_of_iters(name, program, rounds, folder):
    """The row of the module of a program of iters."""
    subprocess.run([program, 'build', '-o', 'm', os.path.join(iters.FOLDER, name + '.sa')], cwd=folder, check=True)
    return against_wabt('`exec` of the module of %s beside `wasm-interp`' % name, folder, program, rounds)


def modules(program, rounds, scale, folder):
    """The rows of modules beside wabt."""
    for name, text, full in machine.MODULES:
        some = max(1, full * scale // 100)
        yield name, lambda name=name, text=text, some=some: module_of_text(name, text, some, program, rounds, folder)
    for name in iters.PROGRAMS:
        yield name, lambda name=name: module_of_iters(name, program, rounds, folder)


def row_of_times(what, words, beside, bar, rounds):
    """The row of two ways of running a program, which have to print the same."""
    seconds, output = routines.best(words, rounds)
    beside_seconds, beside_output = routines.best(beside, rounds)
    if output != beside_output:
        raise Failure('the outputs differ: %r and %r' % (output, beside_output))
    return Row(what, seconds, 's', bar, beside_seconds)


def programs(program, rounds, folder):
    """The rows of compiled programs beside JavaScript and Python."""
    for kind, which in FOLDERS:
        for name in which.PROGRAMS:
            def ways(name=name, which=which):
                return dict(routines.ways(os.path.join(which.FOLDER, name), program, folder))

            def run(name=name, ways=ways):
                words = ways()
                return row_of_times('`run` of %s beside Python' % name, words['sather'], words['python'], 2, rounds)

            def module(name=name, ways=ways, bar=1 if kind == 'iters' else 1.3):
                words = ways()
                return row_of_times('the module of %s in V8 beside JavaScript' % name, words['module'], words['js'], bar, rounds)

            if kind == 'iters':
                yield name, run
            if shutil.which('node'):
                yield name, module


def counts(program, folder):
    """The rows of steps and bytes."""
    def sums(rounds):
        return b'%d' % (rounds * (rounds - 1) // 2)

    def steps(text, wanted=iters.plain):
        return routines.steps_a_round(program, folder, text.format, wanted)

    def bytes_of_hello():
        with open(os.path.join(folder, 'f.sa'), 'w') as file:
            file.write(HELLO)
        subprocess.run([program, 'build', '-o', 'm', 'f.sa'], cwd=folder, check=True)
        return os.path.getsize(os.path.join(folder, 'm'))

    yield 'loop', lambda: Row('a round of a loop', steps(routines.LOOP, sums), 'steps', 24)
    yield 'resumption', lambda: Row('a round of upto!', steps(iters.RESUMED), 'steps', 70)
    yield 'start', lambda: Row('a start and a release', steps(iters.STARTED) - steps(iters.ENTERED), 'steps', 160)
    yield 'hello', lambda: Row('the module that prints a line', bytes_of_hello(), 'bytes', 3072)


def sizes(program, rounds, folder):
    """The rows of a large module and of a large source."""
    def module():
        with open(os.path.join(folder, 'm'), 'wb') as file:
            file.write(machine.large_module())
        return [program, 'exec', 'm']

    def source():
        with open(os.path.join(folder, 'f.sa'), 'w') as file:
            file.write(checker.ordinary(checker.LARGEST))
        return [program, 'check', 'f.sa']

    yield 'decode', lambda: Row('60 MiB decoded and validated', routines.best(module(), rounds, folder)[0], 's', 3)
    yield 'decode', lambda: Row('60 MiB decoded and validated', mebibytes(module(), folder), 'MiB', 1229)
    yield 'check', lambda: Row('`check` of 4 MiB', routines.best(source(), rounds, folder)[0], 's', 1.2)


def rows(program, rounds, scale, folder):
    """All rows by their names, each to be measured when it is asked for."""
    if shutil.which('wasm-interp') and shutil.which('wat2wasm'):
        yield from modules(program, rounds, scale, folder)
    else:
        print('wabt is missing: nothing is run beside wasm-interp')
    if not shutil.which('node'):
        print('node is missing: nothing is run in V8')
    yield from programs(program, rounds, folder)
    yield from counts(program, folder)
    yield from sizes(program, rounds, folder)


def measured(name, measure, is_table):
    """Measures a row and prints it. Gives whether it is within its bar."""
    try:
        row = measure()
    except (Failure, ValueError, subprocess.SubprocessError) as failure:
        print('%s: %s' % (name, failure), flush=True)
        return False
    printed(row.cells(), is_table)
    return row.is_well


def main():
    words = argparse.ArgumentParser(description=__doc__, formatter_class=argparse.RawDescriptionHelpFormatter)
    words.add_argument('--program', default=os.path.join(os.path.dirname(routines.HERE), 'sather'))
    words.add_argument('--rounds', type=int, default=3)
    words.add_argument('--scale', type=int, default=100)
    words.add_argument('--only', default='')
    words.add_argument('--processor', action='store_true')
    words.add_argument('--table', action='store_true')
    given = words.parse_args()
    if given.processor:
        machine.CLOCK = routines.CLOCK = processor_seconds
    well = True
    printed(HEAD, given.table)
    if given.table:
        printed(('---',) * len(HEAD), True)
    with tempfile.TemporaryDirectory() as folder:
        for name, measure in rows(os.path.abspath(given.program), given.rounds, given.scale, folder):
            if given.only in name:
                well &= measured(name, measure, given.table)
    return 0 if well else 1


if __name__ == '__main__':
    sys.exit(main())
