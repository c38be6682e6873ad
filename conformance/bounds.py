#!/usr/bin/env python3
"""bounds.py PROGRAM [--all]

Builds programs with PROGRAM and counts what their modules hold against the bounds that every module of a program keeps:

- at most 50 functions are none of a body of the flat program, with at most 10,000 instructions together;
- blocks nest at most 1,000 deep, and a function declares at most 1,000,000 locals;
- the table holds functions of bodies alone.

The programs are those of the table of cases, the examples, and sources made here that go to the limits of the language: a
routine of 200 variables, expressions and statements that nest as deep as they may, long chains of tests, many classes below
one, many texts. Without --all one in ten of the table's programs is taken. Prints the greatest count of each kind, each
program that passes a bound, and a last line 'N passed, M failed'; the status is 1 where any failed."""
import argparse
import functools
import glob
import os
import sys

import programs
import report
from reader import Reader

IMPORTS = 3
BODY_TYPES = range(3, 8)        # the types of the functions of bodies, by the number of their parameters that are arguments
MOST = {'functions of no body': 50, 'their instructions': 10_000, 'nested blocks': 1000, 'locals of a function': 1_000_000,
        'table entries of no body': 0}


class Counter(Reader):
    """A reader that counts."""

    def __init__(self, spelled):
        super().__init__(spelled)
        self.functions_read = self.own_functions = self.own_instructions = self.nested = self.locals = self.foreign = 0
        self.count = self.declared = 0

    def simple(self, opcode, labels):
        self.count += 1
        self.nested = max(self.nested, len(labels) - 1)
        super().simple(opcode, labels)

    def block_type(self):
        self.count += 1
        return super().block_type()

    def run_of_locals(self):
        count = super().run_of_locals()
        self.declared += count
        return count

    def code(self, ty):
        self.declared, self.count = 0, 0
        super().code(ty)
        self.locals = max(self.locals, self.declared)
        self.functions_read += 1
        if ty not in BODY_TYPES:
            self.own_functions += 1
            self.own_instructions += self.count

    def elem(self):
        self.segment_number()
        self.offset()
        self.foreign += sum(self.funcs[func - IMPORTS] not in BODY_TYPES for func in self.vector(self.unsigned))

    def counts(self):
        """The counts of the bounds, by their names."""
        return {'functions of no body': self.own_functions, 'their instructions': self.own_instructions,
                'nested blocks': self.nested, 'locals of a function': self.locals, 'table entries of no body': self.foreign}


def main_of(body, rest=''):
    """A source whose `main` has these statements."""
    return 'class MAIN is main is %s end; end; %s' % (body, rest)


def sources():
    """Sources at the limits of the language, by their names."""
    names = ['v%d' % number for number in range(199)]
    yield 'a routine of 200 variables', main_of('x ::= f(%s); #OUT + x;' % ', '.join('1' for _ in names)).replace(
        'main is', 'f(%s:INT):INT is r ::= 0; %s return r; end; main is'
        % (', '.join(names), ' '.join('r := r + %s;' % name for name in names)))
    yield 'ifs inside ifs', main_of('x ::= 1; ' + 'if x = 1 then ' * 195 + 'x := 2;' + ' end;' * 195)
    yield 'loops inside loops', main_of('x ::= 1; ' + 'loop ' * 195 + 'x := x + 1; break!;' + ' end; break!;' * 194 + ' end;')
    yield 'parentheses inside parentheses', main_of('x ::= ' + '(1 + ' * 95 + '1' + ')' * 95 + '; #OUT + x;')
    yield 'and and or inside one another', main_of(
        'x ::= true; x := ' + '(x and (x or ' * 48 + 'x' + '))' * 48 + '; if x then #OUT + "y"; end;')
    yield 'a chain of 10,000 tests', main_of(
        'x ::= 9999; if x = 0 then #OUT + 0; ' + ' '.join('elsif x = %d then #OUT + %d;' % (n, n) for n in range(1, 10000)) + ' end;')
    yield '10,000 tests in a loop that leave it', main_of(
        'x ::= 0; loop %s x := x + 1; end; #OUT + x;' % ' '.join('while!(x < %d);' % n for n in range(10000, 20000)))
    classes = ' '.join('class C%d < $A is create:SAME is return new; end; f:INT is return %d; end; end;' % (n, n)
                       for n in range(900))
    yield '900 classes below one', main_of(
        'a:$A := #C0; ' + ' '.join('a := #C%d; x := x + a.f;' % n for n in range(900)) + ' #OUT + x;').replace(
            'a:$A', 'x ::= 0; a:$A') + ' abstract class $A is f:INT; end; ' + classes
    yield '5,000 texts', main_of('s ::= ""; ' + ' '.join('s := "text %d";' % n for n in range(5000)) + ' #OUT + s;')


def sources_of_files():
    """The examples and the sources made here, by their names."""
    for path in sorted(glob.glob(os.path.join(os.path.dirname(os.path.abspath(__file__)), '..', 'examples', '*.sa'))):
        with open(path, encoding='utf-8') as file:
            yield os.path.basename(path), file.read()
    yield from sources()


def tried(all_):
    """Each program: its name, its files, the words of its build, and whether it has to be compiled."""
    table = list(programs.programs(''))
    for case in table if all_ else table[::10]:
        yield case.name, case.files, case.words_of_build(), False
    for name, text in sources_of_files():
        yield name, {'f.sa': text.encode()}, ['-o', 'm', 'f.sa'], True


def counted(command, tried_program):
    """The counts of a program's module, or the line with which the program was refused."""
    _, files, words, _ = tried_program
    with report.folder_with(files) as folder:
        left = report.run([command, 'build', *words], folder)
        if left.status != 0:
            return left.lines.decode('latin-1').strip()
        with open(os.path.join(folder, 'm'), 'rb') as file:
            counter = Counter(file.read())
    counter.module()
    return counter.counts()


def try_all(command, told, all_=False):
    """Counts what the modules hold."""
    every, greatest = list(tried(all_)), {}
    told.part('bounds of modules', len(every))
    for (name, _, _, must), counts in zip(every, report.side_by_side(functools.partial(counted, command), every)):
        if isinstance(counts, str):
            if must or isinstance(counts, report.Late):
                told.count(name, counts)
            else:
                told.leave_out('programs of cases that are refused, whose modules have no bounds to keep')
            continue
        greatest = {kind: max(counts[kind], greatest.get(kind, 0)) for kind in counts}
        passing = ['%d %s' % (counts[kind], kind) for kind in counts if counts[kind] > MOST[kind]]
        told.count(name, ', '.join(passing) or None)
    return greatest


def main():
    words = argparse.ArgumentParser(description=__doc__, formatter_class=argparse.RawDescriptionHelpFormatter)
    words.add_argument('program')
    words.add_argument('--all', action='store_true')
    given = words.parse_args()
    told = report.Report()
    for kind, count in try_all(os.path.abspath(given.program), told, given.all).items():
        told.line('%s: at most %d of %d' % (kind, count, MOST[kind]))
    return told.close()


if __name__ == '__main__':
    sys.exit(main())
