#!/usr/bin/env python3
"""beside.py BEFORE AFTER [--rounds N] [--only WORD]

Two programs of `sather` side by side, such as that of an earlier commit and this one's. Each runs the programs of the folders
`routines` and `iters`, and checks and builds the sources of `checker.py` and of the greatest number of nodes, in turns; a time
is the processor's, the best of N rounds, 5 without --rounds. Prints both times, how many times as long the second took, and the
steps where the two machines make other ones. --only measures what has a name with a word in it.

The status is 1 where outputs differ, or the second takes over 5 % more, and 0.01 seconds more, than the first."""
import argparse
import os
import re
import subprocess
import sys
import tempfile

import checker
import iters
import routines

MOST = 1.05             # how many times as long the second may take
SECONDS = 0.01          # differences below this are the machine's
STATS = re.compile(rb'(steps \d+), bytes \d+\n$')


def measured(words, folder):
    """The processor seconds of a run, and what it left: status, out, and the steps where err tells them."""
    with tempfile.TemporaryFile() as out, tempfile.TemporaryFile() as err:
        process = subprocess.Popen(words, cwd=folder, stdin=subprocess.DEVNULL, stdout=out, stderr=err)
        _, status, usage = os.wait4(process.pid, 0)
        process.returncode = os.waitstatus_to_exitcode(status)
        out.seek(0)
        err.seek(0)
        told, stats = out.read(), STATS.search(err.read())
    return usage.ru_utime + usage.ru_stime, (process.returncode, told), stats.group(1).decode() if stats else ''


def compare(name, programs, words, folder, rounds):
    """Prints the row of one command. Gives whether both leave the same and the second isn't slower."""
    times, left, steps = [[], []], [None, None], ['', '']
    for _ in range(rounds):
        for which, program in enumerate(programs):
            seconds, left[which], steps[which] = measured([program, *words], folder)
            times[which].append(seconds)
    before, after = min(times[0]), min(times[1])
    is_slower = after > before * MOST and after - before > SECONDS
    other = '  %s, before %s' % (steps[1], steps[0]) if steps[0] != steps[1] else ''
    print('%-44s %8.2f %8.2f %6.2f%s%s' % (name, before, after, after / max(before, 1e-9), other, '  SLOWER' * is_slower),
          flush=True)
    if left[0] != left[1]:
        print('%s: they leave different things: %r' % (name, [end[:1] + (end[1][:80],) for end in left]))
        return False
    return not is_slower


def commands():
    """The name of each comparison, with the words of its command, for a source that is named or made."""
    for module in (routines, iters):
        for name in module.PROGRAMS:
            with open(os.path.join(module.FOLDER, name + '.sa'), encoding='latin-1') as file:
                yield 'run %s' % name, ['run', '--stats', 'f.sa'], file.read()
    for name, make in checker.SOURCES:
        yield 'check %s' % name, ['check', 'f.sa'], make()
    nodes = routines.routines(routines.NODES // (4 * routines.STATEMENTS) - 2)
    yield 'build of some 200,000 nodes', ['build', '-o', 'm', 'f.sa'], nodes


def main():
    words = argparse.ArgumentParser(description=__doc__, formatter_class=argparse.RawDescriptionHelpFormatter)
    words.add_argument('before')
    words.add_argument('after')
    words.add_argument('--rounds', type=int, default=5)
    words.add_argument('--only', default='')
    given = words.parse_args()
    programs = [os.path.abspath(given.before), os.path.abspath(given.after)]
    print('%-44s %8s %8s %6s' % ('command', 'before s', 'after s', 'ratio'))
    well = True
    for name, command, text in commands():
        if given.only in name:
            with tempfile.TemporaryDirectory() as folder:
                with open(os.path.join(folder, 'f.sa'), 'w', encoding='latin-1') as file:
                    file.write(text)
                well &= compare(name, programs, command, folder, given.rounds)
    return 0 if well else 1


if __name__ == '__main__':
    sys.exit(main())
