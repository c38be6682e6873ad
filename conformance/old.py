#!/usr/bin/env python3
"""old.py PROGRAM [--only WORD]

Tries the programs of conformance/old, whose README has a table of them:

- of before/NAME.sa and after/NAME.sa at most three lines in a hundred differ;
- `check` says of the old text what the table says: a code, or `accepted`;
- after/NAME.sa, run with the files of lib/ that the table names and with NAME.in as its input where that is there, prints NAME.out,
  tells nothing on err and ends with status 0, and so with `--contracts` where the table says so;
- the table has each program of the folder.

--only takes the programs whose names hold a word."""
import difflib
import functools
import os
import re
import sys

import report

OLD = os.path.join('conformance', 'old')
ROW = re.compile(r'^\| (\w+) \| [^|]* \|([\w, ]*)\| (\w+) \| (yes|no|none) \|$', re.M)
MOST = 3        # changed lines in a hundred


def rows():
    """The rows of the table: a name, the files of lib/, what the old text gets, and whether contracts are kept."""
    return [(name, re.findall(r'\w+', files), before, contracts == 'yes')
            for name, files, before, contracts in ROW.findall(report.text_of(OLD, 'README.md'))]


def changed(before, after):
    """How many lines of a text were changed: of lines in another one's place the greater number, and else those that came or went."""
    matcher = difflib.SequenceMatcher(None, before.splitlines(), after.splitlines(), autojunk=False)
    return sum(max(i2 - i1, j2 - j1) for kind, i1, i2, j1, j2 in matcher.get_opcodes() if kind != 'equal')


def bytes_of(*path):
    """The bytes of a file of the repository, or none where it isn't there."""
    path = os.path.join(report.TOP, *path)
    return open(path, 'rb').read() if os.path.isfile(path) else b''


def tried(program, row):
    """What is wrong with a program, or None."""
    name, library, wanted, keeps = row
    before, after = (report.text_of(OLD, folder, name + '.sa') for folder in ('before', 'after'))
    lines, total = changed(before, after), len(before.splitlines())
    if lines * 100 > MOST * total:
        return '%d of %d lines were changed' % (lines, total)
    files = {'lib/%s.sa' % file: bytes_of('lib', file + '.sa') for file in library}
    with report.folder_with({'before.sa': before.encode(), 'after.sa': after.encode(), **files}) as folder:
        left = report.run([program, 'check', 'before.sa', *files], folder)
        if not re.search(r'\b%s\b' % wanted, (left.lines or left.output).decode()):
            return 'check of the old text: expected %s, and came %s' % (wanted, (left.lines or left.output).decode())
        for options in ([], ['--contracts']) if keeps else ([],):
            left = report.run([program, 'run', *options, 'after.sa', *files], folder, input=bytes_of(OLD, name + '.in'))
            wrong = report.difference(report.Left(bytes_of(OLD, name + '.out')), left)
            if wrong:
                return ' '.join([*options, wrong])
    return None


def without_row():
    """The programs of the folder that the table lacks."""
    there = {os.path.splitext(file)[0] for folder in ('before', 'after') for file in os.listdir(os.path.join(report.TOP, OLD, folder))}
    return sorted(there - {row[0] for row in rows()})


def total():
    """How many lines of how many were changed in all programs."""
    texts = [[report.text_of(OLD, folder, row[0] + '.sa') for folder in ('before', 'after')] for row in rows()]
    return sum(changed(*pair) for pair in texts), sum(len(before.splitlines()) for before, _ in texts)


def try_all(program, told, word=''):
    """Tries the programs whose names hold the word."""
    chosen = [row for row in rows() if word in 'conformance/old: ' + row[0]]
    told.part('old programs, %d lines changed of %d' % total(), len(chosen))
    for row, wrong in zip(chosen, report.side_by_side(functools.partial(tried, program), chosen)):
        told.count('conformance/old: ' + row[0], wrong)
    for name in without_row():
        told.count('conformance/old: ' + name, 'the table of the README lacks it')


if __name__ == '__main__':
    sys.exit(report.of_script(__doc__, try_all))
