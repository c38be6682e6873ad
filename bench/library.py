#!/usr/bin/env python3
"""library.py [--program PROGRAM] [--rounds N] [--only WORD]

Measures classes of lib/ beside what Python has built in: FMAP beside a dict, SORT beside the sort of a list, FSTR beside the joining of
texts. The three programs of the folder `library` are each written in Sather and Python, and have to print the same. Three ways of
running them are timed, the start of the process included: `sather run`, the module of `sather build` in V8 (node), and the Python. A
time is the best of N runs, 3 without --rounds; the ratios are to the time of Python.

A tool that is missing is named, and what needs it is left out. The status is 1 where outputs differ or a run fails."""
import argparse
import os
import shutil
import sys
import tempfile

from routines import FOLDER as HOST, Failure, best

ROOT = os.path.dirname(os.path.dirname(os.path.abspath(__file__)))
PROGRAMS = {'map': 'fmap', 'sort': 'sort', 'text': 'fstr'}      # each with the file of lib/ that it stands on


def ways(name, program, folder):
    """The words of each way of running a program whose tool is there."""
    source = os.path.join(ROOT, 'bench', 'library', name)
    files = [source + '.sa', os.path.join(ROOT, 'lib', PROGRAMS[name] + '.sa')]
    yield 'run', [program, 'run', *files]
    node = shutil.which('node')
    if node:
        best([program, 'build', '-o', 'm', *files], 1, folder)
        yield 'module', [node, os.path.join(HOST, 'host.js'), os.path.join(folder, 'm')]
    else:
        print('node is missing, so no module is run in V8')
    yield 'python', [sys.executable, source + '.py']


def measure(name, program, folder, rounds):
    """Prints the row of a program. Gives whether all ways print the same."""
    times, outputs = {}, {}
    for way, words in ways(name, program, folder):
        times[way], outputs[way] = best(words, rounds)
    seconds = ['%.2f' % times[way] if way in times else '-' for way in ('run', 'module', 'python')]
    ratios = ['%.1f' % (times[way] / times['python']) if way in times else '-' for way in ('run', 'module')]
    print('%-6s %8s %8s %8s %14s %14s' % (name, *seconds, *ratios), flush=True)
    if len(set(outputs.values())) != 1:
        print('%s: the outputs differ: %r' % (name, outputs))
        return False
    return True


def main():
    parser = argparse.ArgumentParser(description=__doc__, formatter_class=argparse.RawDescriptionHelpFormatter)
    parser.add_argument('--program', default=os.path.join(ROOT, 'sather'))
    parser.add_argument('--rounds', type=int, default=3)
    parser.add_argument('--only', default='')
    asked = parser.parse_args()
    print('%-6s %8s %8s %8s %14s %14s' % ('', 'run', 'module', 'python', 'run/python', 'module/python'))
    well = True
    with tempfile.TemporaryDirectory() as folder:
        for name in PROGRAMS:
            if asked.only in name:
                try:
                    well = measure(name, os.path.abspath(asked.program), folder, asked.rounds) and well
                except Failure as failure:
                    print('%s: %s' % (name, failure))
                    well = False
    return 0 if well else 1


if __name__ == '__main__':
    sys.exit(main())
