#!/usr/bin/env python3
"""modules.py PROGRAM [--count N] [--seed S]

Compares what `PROGRAM exec` says of modules with what the definition says, and with V8 (node) and wabt.

- Modules written by hand have the end and the output that the definition gives them, in PROGRAM, and in V8 where both judge
  alike; wabt says the same of their validity.
- N random modules that are valid by construction end alike in PROGRAM, V8 and wabt, with the same output.
- N modules that are these with some bytes changed are malformed where a reader of the format in this folder says so, and
  else valid where V8 and wabt say so. Of those that are malformed `--explain` tells a place.

What V8 and wabt are known to judge otherwise is left out, and counted. A tool that is missing is named. Prints each difference
with the module in hex, and a last line 'N passed, M failed', where each comparison counts; the status is 1 where any failed."""
import argparse
import os
import re
import sys

import handmade
import judges
import maker
import report
from reader import BODY_WITHOUT_END, INITIAL_WITHOUT_END, Reading

FUEL = ['--fuel', '20000000']
INPUT = b'some input\0\xff'
REFUSED = ('malformed', 'invalid')
MAGIC = b'\0asm'
PLACE = re.compile(rb'\nAt byte (\d+) \(0x([0-9a-f]+)\)')
# What later versions of the standard judge otherwise, and V8's own limits.
V8_JUDGES_OTHERWISE = {'several results', 'several tables', 'an own global in an offset', 'labels of several types',
                       'many locals', 'a large table', 'flags of a segment'}
# wabt looks into some custom sections, and lets an offset read imported globals alone. It also takes a body whose last `end`
# is that of an inner block, and an initial expression without `end` that a section ends with.
WABT_JUDGES_OTHERWISE = {'an own global in an offset', 'labels of several types', 'flags of a segment', 'a custom section'}


def verdict(accepted):
    return 'accepted' if accepted else 'refused'


class Comparison:
    """The program, the folder in which it runs, and the report."""

    def __init__(self, program, folder, told):
        self.program, self.folder, self.told = program, folder, told
        self.wabt = judges.has_wabt()

    def compare(self, kind, shown, module, wanted, found):
        """Counts a comparison, and tells the module where it differs."""
        wrong = None if wanted == found else 'expected %s, and came %s; the module is\n  %s' % (wanted, found, module.hex())
        self.told.count('%s, %s' % (kind, shown), wrong)

    def run(self, module, given=b'', words=()):
        return judges.sather(self.program, self.folder, module, given, words)

    def by_hand(self):
        """The modules written by hand."""
        rows = list(handmade.rows())
        answers = judges.v8([(row.module, row.given, row.v8) for row in rows])
        for place, row in enumerate(rows):
            found = self.run(row.module, row.given, row.words())
            wanted = judges.Run(row.end, row.output, row.steps)
            self.compare('by hand, the program', row.name, row.module, str(wanted), str(found))
            if answers is not None:
                self.by_hand_in_v8(row, *answers[place])
            if self.wabt and row.wabt:
                accepted = verdict(judges.wabt_accepts(self.folder))
                self.compare('by hand, valid in wabt', row.name, row.module, verdict(row.end not in REFUSED), accepted)
            elif self.wabt:
                self.told.leave_out('modules by hand whose validity wabt judges otherwise')

    def by_hand_in_v8(self, row, valid, run):
        if not row.v8:
            self.told.leave_out('modules by hand that V8 judges otherwise')
        elif row.end in REFUSED:
            self.compare('by hand, V8', row.name, row.module, 'refused', verdict(valid))
        elif row.end.startswith('unlinked'):
            self.compare('by hand, V8', row.name, row.module, 'unlinked', run.end if valid else 'refused')
        else:
            wanted = judges.Run(row.end, row.output)
            self.compare('by hand, V8', row.name, row.module, str(wanted), str(run))

    def random(self, rng, count):
        """Modules that are valid by construction."""
        modules = [maker.valid_module(rng) for _ in range(count)]
        answers = judges.v8([(module, INPUT, True) for module in modules])
        for place, module in enumerate(modules):
            name = 'module %d' % place
            found = self.run(module, INPUT, FUEL)
            if answers is not None:
                valid, run = answers[place]
                self.compare('random, V8', name, module, str(run) if valid else 'refused', str(found))
            if self.wabt:
                self.random_in_wabt(name, module, found)

    def random_in_wabt(self, name, module, found):
        run = judges.wabt_run(self.folder)
        if run is None:
            self.told.leave_out('random modules that read input or stop, which wabt has no host for')
        else:
            self.compare('random, wabt', name, module, str(run), str(found))

    def changed(self, rng, count):
        """Modules with some bytes changed. None of them has a `main`, so one that is valid is not linked."""
        modules = [maker.mutated(rng, maker.small_module(rng)) for _ in range(count)]
        answers = judges.v8([(module, b'', False) for module in modules])
        for place, module in enumerate(modules):
            name = 'module %d' % place
            reading = Reading(module)
            found = self.run(module)
            said = 'malformed' if found.end == 'malformed' else 'well formed'
            wanted = 'malformed' if reading.malformed else 'well formed'
            self.compare('changed, the grammar', '%s (%s)' % (name, reading.malformed), module, wanted, said)
            if found.end == 'malformed':
                self.explained(name, module, reading)
            accepted = found.end.split()[0] if found.end not in REFUSED else 'refused'
            if answers is not None:
                self.changed_in('V8', V8_JUDGES_OTHERWISE, name, module, reading, answers[place][0], accepted)
            if self.wabt:
                self.changed_in('wabt', WABT_JUDGES_OTHERWISE, name, module, reading, judges.wabt_accepts(self.folder),
                                accepted)

    def explained(self, name, module, reading):
        """What is told of a changed module that is malformed: a place in it, unless it doesn't begin as a module."""
        told = judges.explained(self.program, self.folder)
        found = PLACE.search(told)
        is_place = found and int(found[1]) == int(found[2], 16) <= len(module)
        wanted = 'a place' if MAGIC.startswith(module[:4]) else 'no place'
        self.compare('changed, explained', '%s (%s)' % (name, reading.malformed), module, wanted, 'a place' if is_place else 'no place')

    def changed_in(self, tool, otherwise, name, module, reading, valid, found):
        """Compares a verdict with a tool's. A module that breaks a rule of the profile alone is left out where the tool takes
        it."""
        unended = tool == 'wabt' and reading.malformed in (BODY_WITHOUT_END, INITIAL_WITHOUT_END)
        if reading.malformed and reading.later and valid:
            self.told.leave_out('changed modules outside the profile that %s takes' % tool)
        elif reading.notes & otherwise or unended:
            self.told.leave_out('changed modules that %s judges otherwise' % tool)
        else:
            self.compare('changed, valid in %s' % tool, '%s (%s)' % (name, reading.malformed), module,
                               'unlinked' if valid else 'refused', found)


def try_all(program, told, count=100, seed=1):
    """Makes all comparisons, with so many random modules and so many changed ones."""
    judges.tell_missing(told)
    told.part('modules by hand, random and changed ones', 0)
    with report.folder_with({}) as folder:
        comparison = Comparison(program, folder, told)
        comparison.by_hand()
        rng = maker.seeded(seed)
        comparison.random(rng, count)
        comparison.changed(rng, count)


def main():
    words = argparse.ArgumentParser(description=__doc__, formatter_class=argparse.RawDescriptionHelpFormatter)
    words.add_argument('program')
    words.add_argument('--count', type=int, default=100)
    words.add_argument('--seed', type=int, default=1)
    given = words.parse_args()
    told = report.Report()
    try_all(os.path.abspath(given.program), told, given.count, given.seed)
    return told.close()


if __name__ == '__main__':
    sys.exit(main())
