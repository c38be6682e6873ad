#!/usr/bin/env python3
"""refused.py PROGRAM [--only WORD] [--count N] [--seed S] [--all]

Refuses the program what it asks of its host, one thing a run, and compares what it leaves with what it leaves undisturbed:

- an allocation, alone or with all behind it: the program answers as it does undisturbed, or that memory ran out, and then out has
  a front of what was due;
- an opening, a placing, a read or a write: the answer is the fault of the device that it was made of, and where that is err,
  output and status stand;
- reads and writes of one byte at a time, and such as a signal interrupts first: nothing changes.

The file of `build -o` holds what it held or a front of the module. Of each command N allocations are refused in both ways, which S
chooses, 10 without --count; --all refuses each. All calls of the system are refused in any case. --only takes the commands whose
names hold a word.

What refuses is a library that stands before the C library (refusing.py). Where it can't be built nothing is tried."""
import argparse
import functools
import os
import random
import sys

import binary
import refusing
import report
from hostile import FAULT, HELLO, UNKNOWN
from report import Left

OLD = b'what the module\'s file held'
MANNERS = ('once', 'on')
FAULTS = {0: b'input fault\n', 1: b'output fault\n'}
MEMORY = Left(lines=b'out of memory\n', status=125)

ITERS = b"""
abstract class $SHAPE is area!(once most:INT):INT; end;
class SQUARE < $SHAPE is
   create:SAME is return new; end;
   area!(once most:INT):INT is side ::= 1; loop while!(side <= most); yield side * side; side := side + 1; end; end;
end;
class MAIN is
   inner!(once depth:INT):INT is
      if depth = 0 then yield 7; else loop yield inner!(depth - 1) + 1; end; end;
   end;
   main is
      shape:$SHAPE := #SQUARE;
      add ::= bind(10.plus(_));
      loop protect #OUT + add.call(3) + "\\n"; when STR then end; #OUT + shape.area!(3) + " " + inner!(20) + "\\n"; end;
      protect raise "a" + "b"; when STR then #OUT + exception; end;
      numbers ::= #ARRAY{INT}(1000);
   end;
end;
"""
UNUSED = b'class BOX{T < $STR} is attr of:T; text:STR is return of.str + nope; end; end; class MAIN is main is nope; end; end;'
COPY = b'class MAIN is main is loop b ::= #IN.get_byte; while!(b >= 0); #OUT + b.char; end; end; end;'
SPENT = b'class MAIN is main is loop #OUT + "and so on\\n"; end; end; end;'
GROWS = binary.PREAMBLE + b''.join((
    binary.section(1, binary.vector([binary.func_type([], [binary.I32])])),
    binary.section(3, binary.vector([binary.unsigned(0)])),
    binary.section(5, binary.vector([binary.limits(1, 10)])),
    binary.section(7, binary.vector([binary.counted(b'main') + b'\0\0'])),
    binary.section(10, binary.vector([binary.counted(b'\0' + binary.i32_const(3) + b'\x40\0' + b'\x0b')]))))

LISTING = b"""type i32 -> i32
import 656e76 707574 func 0
func 0 i64 i32
block i32
local.get 0
br_table 0 0
end
if
i64.const 7
local.set 1
else
nop
end
end
table 1
memory 1 1
global i32 var i32 0
export 6d61696e func 1
elem 0 i32 0 1
data 0 i32 8 6f6b
"""


class Command:
    """A command: its name, its words, the files where it runs, its input, and the file that it may write."""

    def __init__(self, name, words, files=None, given=b'', writes=None):
        self.name, self.words, self.given, self.writes = name, words.split(), given, writes
        self.files = {**(files or {}), **({writes: OLD} if writes else {})}

    def run(self, *program, **env):
        """What the command leaves, and what its file holds. The program may have words of its own before those of the command."""
        with report.folder_with(self.files) as folder:
            left = report.run([*program, *self.words], folder, input=self.given, env=env)
            if self.writes is None:
                return left, None
            with open(os.path.join(folder, self.writes), 'rb') as file:
                return left, file.read()


def commands(program):
    """The commands that are tried."""
    hello, iters = {'f.sa': HELLO}, {'f.sa': ITERS}
    _, module = Command('a module for the others', 'build -o m f.sa', iters, writes='m').run(program)
    yield Command('run', 'run f.sa', hello)
    yield Command('run with iters', 'run --stats --room 64 f.sa', iters)
    yield Command('run with an input', 'run --room 64 f.sa', {'f.sa': COPY}, bytes(range(100)))
    yield Command('run of a fault', 'run --room 64 --stats f.sa', {'f.sa': FAULT})
    yield Command('run out of fuel', 'run --room 64 --fuel 30000 --stats f.sa', {'f.sa': SPENT})
    yield Command('run of a refused program', 'run e.sa f.sa', {'e.sa': b'-- nothing\n' * 9000, 'f.sa': UNKNOWN})
    yield Command('build', 'build -o m f.sa', hello, writes='m')
    yield Command('build with sites', 'build --sites s -o m f.sa', hello, writes='m')
    yield Command('check', 'check f.sa', iters)
    yield Command('check of all', 'check --all f.sa', {'f.sa': UNUSED})
    yield Command('exec', 'exec --stats m', {'m': module})
    yield Command('exec of a module that grows', 'exec m', {'m': GROWS})
    yield Command('exec of no module', 'exec m', {'m': module[:-1]})
    yield Command('gen', 'gen 100')
    yield Command('selftest', 'selftest 10')
    yield Command('listing', 'listing m', {'m': module})
    yield Command('listing of no module', 'listing m', {'m': module[:-1]})
    yield Command('assemble', 'assemble -o m l', {'l': LISTING}, writes='m')
    yield Command('assemble of no listing', 'assemble -o m l', {'l': LISTING[:-5]}, writes='m')
    yield Command('no command', 'run --fuel f.sa')


def of_memory(own, found):
    """What is wrong where memory was refused, or None. Each argument is what was left, and what the file holds."""
    if found == own:
        return None
    wanted = Left(own[0].output, MEMORY.lines, MEMORY.status)
    return report.difference(wanted, found[0], output_may_be_cut=True) or of_file(own, found)


def of_call(descriptor, own, found):
    """What is wrong where a call failed that was made of this descriptor, or None."""
    if descriptor == 2:
        wanted = Left(own[0].output, own[0].lines[:len(found[0].lines)], own[0].status)
    else:
        wanted = Left(own[0].output, FAULTS.get(descriptor, b'store fault\n'), 123)
    return report.difference(wanted, found[0], output_may_be_cut=descriptor != 2) or of_file(own, found)


def of_file(own, found):
    """What the file holds that is neither what it held nor a front of the module, or None."""
    if found[1] == OLD or found[1] is None or own[1].startswith(found[1]):
        return None
    return 'the file holds %.60r' % found[1]


def tried(program, library, own, task):
    """What is wrong with a command to which this is refused, or None."""
    command, refuse, descriptor = task
    found = command.run(program, LD_PRELOAD=library, REFUSE=refuse)
    if refuse.startswith('allocation'):
        return of_memory(own[command.name], found)
    if refuse.startswith('call'):
        return of_call(descriptor, own[command.name], found)
    return None if found == own[command.name] else 'expected %r, and came %r' % (own[command.name], found)


def tasks_of(command, calls, chosen):
    """What is refused to a command, with the descriptor of a call, by what is told of its own calls."""
    first, *lines = calls.splitlines()
    for number in chosen(int(first.removeprefix('allocations '))):
        for manner in MANNERS:
            yield command, 'allocation %d %s' % (number, manner), None
    for number, line in enumerate(lines, 1):
        yield command, 'call %d once' % number, int(line.split()[1])
    for manner in ('short', 'broken'):
        yield command, 'transfer 0 %s' % manner, None


def chooser(count, seed):
    """What chooses so many of the numbers from 1 on up to a total, or all where there is no count."""
    rng = random.Random(seed)
    return lambda total: range(1, total + 1) if count is None else sorted(rng.sample(range(1, total + 1), min(count, total)))


def try_all(program, told, word='', count=10, seed=1):
    """Refuses what the commands whose names hold the word ask for, of each so many allocations, or all where there is no count."""
    with refusing.library(told, 'no allocation and no call of the system is refused') as library, report.folder_with({}) as folder:
        if library is None:
            return
        calls = os.path.join(folder, 'calls')
        own, tasks, chosen = {}, [], chooser(count, seed)
        for command in commands(program):
            if word in command.name:
                own[command.name] = command.run(program, LD_PRELOAD=library, CALLS=calls)
                with open(calls, encoding='ascii') as file:
                    tasks += tasks_of(command, file.read(), chosen)
        told.part('what a host refuses', len(tasks))
        work = functools.partial(tried, program, library, own)
        for (command, refuse, _), wrong in zip(tasks, report.side_by_side(work, tasks)):
            told.count('%s, %s' % (command.name, refuse), wrong)


def main():
    words = argparse.ArgumentParser(description=__doc__, formatter_class=argparse.RawDescriptionHelpFormatter)
    words.add_argument('program')
    words.add_argument('--only', default='')
    words.add_argument('--count', type=int, default=10)
    words.add_argument('--seed', type=int, default=1)
    words.add_argument('--all', action='store_true')
    given = words.parse_args()
    told = report.Report()
    try_all(os.path.abspath(given.program), told, given.only, None if given.all else given.count, given.seed)
    return told.close()


if __name__ == '__main__':
    sys.exit(main())
