#!/usr/bin/env python3
"""grammar.py PROGRAM [--limit N]

Tries the program on sources that are nearly right.

The sources are the examples and the files of the cases. Of each one every prefix is checked, and it with each byte
changed, left out or doubled. N of these texts are tried (2,000 without the option), the same ones in each run, spread
over all sources; `--limit 0` tries all. Each has to be accepted, or refused with a line inside the text or the prelude.
Prints each text that differs, and a last line 'N passed, M failed'; the status is 1 where any failed."""
import argparse
import functools
import glob
import os
import random
import re
import sys

import cases
import report

TOP = os.path.join(os.path.dirname(os.path.abspath(__file__)), '..')
LONGEST = 2000
SIGNS = b' \n\t()[]{},;:.=/<>+-*%^~#|_$!"\'\\@\xff0189abzAZ'
REFUSED = re.compile(rb'(f\.sa|prelude):([1-9][0-9]*): E[0-5][0-9]: [A-Za-z:, -]+\n')
PRELUDE_LINES = 93


def sources():
    """Each source once, with a name to find it by. Very long ones are left out: each of their texts is as long."""
    seen = set()
    for path in sorted(glob.glob(os.path.join(TOP, 'examples', '*.sa'))):
        with open(path, 'rb') as file:
            yield os.path.basename(path), file.read()
    for case in cases.read():
        for source in case.files.values():
            if source not in seen and len(source) <= LONGEST:
                seen.add(source)
                yield case.name, source


def edits(source, chance):
    """The texts that differ from the source in one place, each with what was done."""
    for at in range(len(source) + 1):
        yield 'the first %d bytes' % at, source[:at]
    for at in range(len(source)):
        other = bytes([chance.choice(SIGNS)])
        yield 'byte %d as %r' % (at, other), source[:at] + other + source[at + 1:]
        yield 'without byte %d' % at, source[:at] + source[at + 1:]
        yield 'byte %d twice' % at, source[:at + 1] + source[at:]


def texts(limit):
    chance = random.Random(0)
    every = [(name, how, text) for name, source in sources() for how, text in edits(source, chance)]
    if 0 < limit < len(every):
        every = chance.sample(every, limit)
    return every


def fault(command, text):
    """What is wrong with the program's answer, or None."""
    with report.folder_with({'f.sa': text}) as folder:
        left = report.run([command, 'check', 'f.sa'], folder)
    if left == report.Left(b'accepted\n'):
        return None
    refused = REFUSED.fullmatch(left.lines)
    if refused and left.status == 120 and not left.output:
        lines = PRELUDE_LINES if refused.group(1) == b'prelude' else text.count(b'\n') + 1
        if int(refused.group(2)) <= lines:
            return None
    return 'expected that it is accepted or refused inside the text, and came %s, for the text %r' % (left, text)


def try_all(command, told, limit=2000):
    """Tries so many of the texts."""
    every = texts(limit)
    told.part('sources that are nearly right', len(every))
    wrongs = report.side_by_side(functools.partial(fault, command), [text for _, _, text in every])
    for (name, how, _), wrong in zip(every, wrongs):
        told.count('%s, %s' % (name, how), wrong)


def main():
    words = argparse.ArgumentParser(description=__doc__, formatter_class=argparse.RawDescriptionHelpFormatter)
    words.add_argument('program')
    words.add_argument('--limit', type=int, default=2000)
    given = words.parse_args()
    told = report.Report()
    try_all(os.path.abspath(given.program), told, given.limit)
    return told.close()


if __name__ == '__main__':
    sys.exit(main())
