#!/usr/bin/env python3
"""iters.py [--program PROGRAM] [--rounds N] [--only WORD]

Measures how fast iters run, beside the generators of JavaScript and Python.

The five programs of the folder `iters` are each written in Sather, JavaScript and Python, and all have to print the same.
They are timed as `routines.py` tells, and a ratio is that of two times: how many times as fast as Python `sather run` is, and
how many times as slow as JavaScript the module is in V8. That one has a bar: the module is at most twice as slow.

Then the steps of the machine are counted: of a resumption of `upto!` with the suspension behind it, and of the start and the
release of an instance of it that its loop leaves at once. --only measures what has a name with a word in it.

A tool that is missing is named, and what needs it is left out. The status is 1 where outputs differ, a run fails or a bar of
steps is passed."""
import os
import sys

from routines import HERE, measure, run, steps_a_round, under

FOLDER = os.path.join(HERE, 'iters')
PROGRAMS = ['nested', 'pipeline', 'tree', 'orders', 'fringe']
RESUMPTION_STEPS = 120          # the bars
START_STEPS = 250
MAIN = 'class MAIN is main is n ::= %d; i ::= 0; s ::= 0; %s #OUT + s; end; end;'
RESUMED = MAIN.replace('%d', '{0}').replace('%s', 'loop s := 1.upto!(n); end;')
STARTED = MAIN.replace('%d', '{0}').replace(
    '%s', 'loop while!(i < n); i := i + 1; s := s + 1; loop s := s + 0.upto!(0); break!; end; end;')
ENTERED = MAIN.replace('%d', '{0}').replace(
    '%s', 'loop while!(i < n); i := i + 1; s := s + 1; loop s := s + 0; break!; end; end;')


def plain(rounds):
    """The output of each of the counted programs."""
    return b'%d' % rounds


def measure_resumption(program, folder):
    """The steps of a round that resumes an instance. Gives whether they are under their bar."""
    steps = steps_a_round(program, folder, RESUMED.format, plain)
    return under('a resumption with its suspension, and the round around it', steps, 'steps', RESUMPTION_STEPS)


def measure_start(program, folder):
    """The steps of a start and a release. Gives whether they are under their bar."""
    started = steps_a_round(program, folder, STARTED.format, plain)
    entered = steps_a_round(program, folder, ENTERED.format, plain)
    return under('a start and a release', started - entered, 'steps', START_STEPS)


def tasks_of_iters(program, rounds):
    """The measurements by their names."""
    for name in PROGRAMS:
        yield name, lambda folder, name=name: measure(os.path.join(FOLDER, name), program, folder, rounds)
    if program:
        yield 'resumption', lambda folder: measure_resumption(program, folder)
        yield 'start', lambda folder: measure_start(program, folder)


if __name__ == '__main__':
    sys.exit(run(tasks_of_iters, __doc__))
