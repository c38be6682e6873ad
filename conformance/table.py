#!/usr/bin/env python3
"""table.py PROGRAM [--only WORD]

Runs the cases of the table from the shell, each in a folder of its own that holds its files: the output, the lines on err and
the status have to be those of the case. The devices that fail in a case are made to by a library that stands before the C library
(refusing.py), where it can be built; the gate runs all cases over objects in memory. --only takes the cases whose names hold a
word; the name of a case has its subject behind it."""
import functools
import sys

import cases
import refusing
import report


def tried(program, library, case):
    """What differs in the case, or None."""
    with report.folder_with(case.files) as folder:
        env = refusing.environment(library, case.failing)
        left = report.run([program, *case.words], folder, input=case.input, env=env)
    return report.difference(report.Left(case.output, case.lines, case.status), left, case.output_may_be_cut)


def try_all(program, told, word=''):
    """Tries the cases whose names hold the word."""
    every = [case for case in cases.read() if word in report.label(case)]
    with refusing.library(told, 'cases with a device that fails aren\'t tried') as library:
        chosen = [case for case in every if library or not case.failing]
        told.part('the table of cases', len(chosen))
        for case, wrong in zip(chosen, report.side_by_side(functools.partial(tried, program, library), chosen)):
            told.count(report.label(case), wrong)


if __name__ == '__main__':
    sys.exit(report.of_script(__doc__, try_all))
