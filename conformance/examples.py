#!/usr/bin/env python3
"""examples.py PROGRAM [--only WORD]

Runs the examples: examples/NAME.sa, with examples/NAME.in as its input where that is there, has to print examples/NAME.out, tell
nothing on err and end with status 0. Where it has contracts it has to do the same with `--contracts`. --only takes the examples
whose names hold a word."""
import functools
import glob
import os
import re
import sys

import report

EXAMPLES = os.path.join(os.path.dirname(os.path.abspath(__file__)), '..', 'examples')
HAS_CONTRACTS = re.compile(rb'^(?:[^-\n]|-[^-\n])*\b(?:pre|post|invariant)\b', re.M)


def names():
    """The names of the examples."""
    return [os.path.basename(path).removesuffix('.sa') for path in sorted(glob.glob(os.path.join(EXAMPLES, '*.sa')))]


def bytes_of(name):
    """The bytes of a file beside the examples, or None where there is none."""
    path = os.path.join(EXAMPLES, name)
    if not os.path.isfile(path):
        return None
    with open(path, 'rb') as file:
        return file.read()


def tried(program, name):
    """What differs in the example, or None."""
    wanted = bytes_of(name + '.out')
    if wanted is None:
        return 'examples/%s.out, what it has to print, is missing' % name
    source, given = bytes_of(name + '.sa'), bytes_of(name + '.in') or b''
    with report.folder_with({name + '.sa': source}) as folder:
        for options in ([], ['--contracts']) if HAS_CONTRACTS.search(source) else ([],):
            left = report.run([program, 'run', *options, name + '.sa'], folder, input=given)
            wrong = report.difference(report.Left(wanted), left)
            if wrong:
                return ' '.join([*options, wrong])
    return None


def try_all(program, told, word=''):
    """Tries the examples whose names hold the word."""
    chosen = [name for name in names() if word in 'examples/%s.sa' % name]
    told.part('examples', len(chosen))
    for name, wrong in zip(chosen, report.side_by_side(functools.partial(tried, program), chosen)):
        told.count('examples/%s.sa' % name, wrong)


if __name__ == '__main__':
    sys.exit(report.of_script(__doc__, try_all))
