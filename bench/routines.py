#!/usr/bin/env python3
"""routines.py [--program PROGRAM] [--rounds N] [--only WORD]

Measures how fast compiled programs run, beside the same programs in JavaScript and Python, and how long they take to compile.

The five programs of the folder `routines` are each written in Sather, JavaScript and Python, and all have to print the same.
Four ways of running them are timed, the start of the process included: `sather run`, the module of `sather build` in V8
(node), the JavaScript in V8, and the Python. A time is the best of N runs, 3 without --rounds. A ratio is that of two times:
how many times as fast as Python `sather run` is, and how many times as slow as JavaScript the module is in V8.

Then three bars are looked at: the seconds of `sather build` for a source with as many nodes of the typed tree as may be,
200,000, and of `sather run` for a source of 4 MiB that has these and many classes besides; and the steps of the machine for
a round of a loop that adds up numbers. --only measures what has a name with a word in it.

A tool that is missing is named, and what needs it is left out. The status is 1 where outputs differ, a run fails or a bar
is passed."""
import argparse
import os
import re
import shutil
import subprocess
import sys
import tempfile
import time

from checker import ORDINARY

HERE = os.path.dirname(os.path.abspath(__file__))
FOLDER = os.path.join(HERE, 'routines')
PROGRAMS = ['sieve', 'sorting', 'matrix', 'texts', 'shapes']
RUN_SECONDS = 300               # the longest that one run may take
CLOCK = time.perf_counter       # gives the seconds of which runs are timed by the difference
LARGEST = 4 * 1024 * 1024
NODES = 200_000                 # the most that a program may have
NODES_SECONDS = 3.0             # the bars
LARGEST_SECONDS = 10.0
STEPS = 60
STATS = re.compile(rb'steps (\d+), bytes \d+\n$')
STATEMENTS = 100                # of a generated routine: each has four nodes
LOOP = 'class MAIN is main is n ::= {0}; s ::= 0; i ::= 0; loop while!(i < n); s := s + i; i := i + 1; end; #OUT + s; end; end;'


class Failure(Exception):
    """A run that ended otherwise than it should."""


def best(words, rounds, folder=None):
    """The shortest time of so many runs, in seconds, and the output."""
    shortest = None
    for _ in range(rounds):
        start = CLOCK()
        ended = subprocess.run(words, cwd=folder, stdin=subprocess.DEVNULL, capture_output=True, timeout=RUN_SECONDS)
        taken = CLOCK() - start
        if ended.returncode != 0:
            said = ended.stderr.decode('latin-1').strip()
            raise Failure('%s ended with status %d: %s' % (' '.join(words[:2]), ended.returncode, said))
        shortest = taken if shortest is None else min(shortest, taken)
    return shortest, ended.stdout


def ways(source, program, folder):
    """The words of each way of running a program, a file without its ending, whose tool is there."""
    node = shutil.which('node')
    if program:
        yield 'sather', [program, 'run', source + '.sa']
        if node:
            best([program, 'build', '-o', 'm', source + '.sa'], 1, folder)
            yield 'module', [node, os.path.join(FOLDER, 'host.js'), os.path.join(folder, 'm')]
    if node:
        yield 'js', [node, source + '.js']
    yield 'python', [sys.executable, source + '.py']


def measure(source, program, folder, rounds):
    """Prints the row of a program. Gives whether all ways print the same."""
    name = os.path.basename(source)
    times, outputs = {}, {}
    for way, words in ways(source, program, folder):
        times[way], outputs[way] = best(words, rounds)

    def ratio(slow, fast):
        return '%.1f' % (times[slow] / times[fast]) if slow in times and fast in times else '-'

    cells = ['%.2f' % times[way] if way in times else '-' for way in ('sather', 'module', 'js', 'python')]
    print('%-10s %10s %10s %10s %10s %14s %14s' % (name, *cells, ratio('python', 'sather'), ratio('module', 'js')), flush=True)
    if len(set(outputs.values())) != 1:
        print('%s: the outputs differ: %r' % (name, outputs))
        return False
    return True


def routines(count):
    """A class MAIN with so many routines that are called once each."""
    body = 'x := x + 1; ' * STATEMENTS
    texts = ''.join('r%d(x:INT):INT is %sreturn x; end;\n' % (number, body) for number in range(count))
    calls = ''.join('n := r%d(n);\n' % number for number in range(count))
    return 'class MAIN is\n%smain is n ::= 0;\n%s#OUT + n + "\\n"; end; end;\n' % (texts, calls)


def most_routines(program, folder):
    """The source with the most routines that is accepted: one more would have too many nodes."""
    for count in range(NODES // (4 * STATEMENTS), 0, -1):
        text = routines(count)
        with open(os.path.join(folder, 'f.sa'), 'w') as file:
            file.write(text)
        ended = subprocess.run([program, 'check', 'f.sa'], cwd=folder, stdin=subprocess.DEVNULL, capture_output=True,
                               timeout=RUN_SECONDS)
        if ended.returncode == 0:
            return count, text
        if b': E55: ' not in ended.stderr:
            raise Failure('check ended with status %d: %r' % (ended.returncode, ended.stderr))
    raise Failure('no source is accepted')


def filled(text):
    """The source with ordinary classes before it, up to 4 MiB."""
    classes = []
    left = LARGEST - len(text)
    while True:
        more = ORDINARY.format(len(classes))
        if len(more) > left:
            return ''.join(classes) + text
        classes.append(more)
        left -= len(more)


def under(what, value, unit, bar):
    """Prints a value beside its bar. Gives whether it is under it."""
    well = value < bar
    print('%s: %.2f %s, which is %s the bar of %g' % (what, value, unit, 'under' if well else 'OVER', bar), flush=True)
    return well


def measure_compiling(program, folder, rounds):
    """The seconds of a source with the most nodes, and of one of 4 MiB. Gives whether both are under their bars."""
    count, text = most_routines(program, folder)
    wanted = b'%d\n' % (count * STATEMENTS)
    seconds, _ = best([program, 'build', '-o', 'm', 'f.sa'], rounds, folder)
    well = under('build of %d routines with some 200,000 nodes' % count, seconds, 's', NODES_SECONDS)
    large = filled(text)
    with open(os.path.join(folder, 'f.sa'), 'w') as file:
        file.write(large)
    seconds, output = best([program, 'run', 'f.sa'], rounds, folder)
    if output != wanted:
        raise Failure('the source of 4 MiB prints %r' % output)
    return under('run of %d bytes' % len(large), seconds, 's', LARGEST_SECONDS) and well


def steps_of(program, folder, text, wanted):
    """The steps of a run of a source that prints what is wanted."""
    with open(os.path.join(folder, 'f.sa'), 'w') as file:
        file.write(text)
    ended = subprocess.run([program, 'run', '--stats', 'f.sa'], cwd=folder, stdin=subprocess.DEVNULL, capture_output=True,
                           timeout=RUN_SECONDS)
    stats = STATS.search(ended.stderr)
    if ended.returncode != 0 or ended.stdout != wanted or not stats:
        raise Failure('the source left %r, %r and status %d' % (ended.stdout, ended.stderr, ended.returncode))
    return int(stats.group(1))


def steps_a_round(program, folder, text, wanted):
    """The steps of a round of a loop, where `text` and `wanted` give a source with so many rounds and its output."""
    few, many = 10_000, 60_000
    more = steps_of(program, folder, text(many), wanted(many)) - steps_of(program, folder, text(few), wanted(few))
    return more / (many - few)


def measure_steps(program, folder):
    """The steps of a round of a loop. Gives whether they are under their bar."""
    steps = steps_a_round(program, folder, LOOP.format, lambda rounds: b'%d' % (rounds * (rounds - 1) // 2))
    return under('a round of the loop', steps, 'steps', STEPS)


def run(tasks_of, description):
    """Does the tasks that the words of the command ask for. Gives the status."""
    words = argparse.ArgumentParser(description=description, formatter_class=argparse.RawDescriptionHelpFormatter)
    words.add_argument('--program', default=os.path.join(os.path.dirname(HERE), 'sather'))
    words.add_argument('--rounds', type=int, default=3)
    words.add_argument('--only', default='')
    given = words.parse_args()
    program = shutil.which(given.program)
    if program:
        program = os.path.abspath(program)
    else:
        print('%s: no such program, so only JavaScript and Python are measured' % given.program)
    if shutil.which('node') is None:
        print('node is missing: nothing is run in V8')
    well = True
    print('%-10s %10s %10s %10s %10s %14s %14s' % ('program', 'sather s', 'module s', 'js s', 'python s', 'python/sather',
                                                  'module/js'))
    for name, task in tasks_of(program, given.rounds):
        if given.only not in name:
            continue
        with tempfile.TemporaryDirectory() as folder:
            try:
                well &= task(folder)
            except (Failure, subprocess.TimeoutExpired) as failure:
                print('%s: %s' % (name, failure))
                well = False
    return 0 if well else 1


def tasks_of_routines(program, rounds):
    """The measurements by their names."""
    for name in PROGRAMS:
        yield name, lambda folder, name=name: measure(os.path.join(FOLDER, name), program, folder, rounds)
    if program:
        yield 'compiling', lambda folder: measure_compiling(program, folder, rounds)
        yield 'steps', lambda folder: measure_steps(program, folder)


if __name__ == '__main__':
    sys.exit(run(tasks_of_routines, __doc__))
