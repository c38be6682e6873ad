#!/usr/bin/env python3
"""programs.py PROGRAM [--only WORD]

Runs the programs of the cases in other engines. Each case with the words `run ..`, with no failing device and whose program is
compiled is run by `PROGRAM run --stats`, without a trace. Its files are made into a module by `PROGRAM build`, and then

- `PROGRAM exec --stats` of the module leaves the same output, the same end and the same statistics;
- V8 (node) finds the module valid, and runs it to the same output and the same end: the status, or the two numbers of
  `env.stop`, of which the first is the kind of the fault that `run` tells. V8 has no fuel: a case with fuel is only validated;
- `wasm-validate` of wabt finds it valid without the features that came after 1.0.

A tool that is missing is named, and what needs it is left out. --only takes the cases whose names hold a word. Prints each
program that differs, and a last line 'N passed, M failed'; the status is 1 where any failed."""
import functools
import os
import re
import sys

import cases
import judges
import report

KINDS = ['overflow', 'division by zero', 'void', 'index', 'no branch', 'no return', 'assert', 'uncaught', 'no room',
         'too deep', 'frames']
NOT_COMPILED = (120, 123, 124, 125)
FAULT = re.compile(rb'[^\n]+:\d+: fault: ([a-z ]+)\n')
STACK = 900 * 1024 * 1024   # bytes of V8's stack: 10,000 calls, each with the variables of its routine
TASKS = 40                  # modules that one process of V8 judges
REFUSED = 'refused'         # what is given for a program that isn't compiled
ON_ERR = ('--stats', '--trace', '--explain')   # what only tells more on err
HELP = {'--help', '-h'}     # what asks for a page, and runs nothing


class Program:
    """A program of a case: its name, its files, the words behind `run` but for those that only tell more, and its input."""

    def __init__(self, case):
        self.name = report.label(case)
        self.words = [word for word in case.words[1:] if word not in ON_ERR]
        self.files, self.input = case.files, case.input

    def fuel(self):
        """The option of the fuel, as words."""
        for at, word in enumerate(self.words):
            if word == '--fuel':
                return self.words[at:at + 2]
            if word.startswith('--fuel='):
                return [word]
        return []

    def words_of_build(self):
        """The words behind `build`: those of `run` without the fuel."""
        fuel = self.fuel()
        at = self.words.index(fuel[0]) if fuel else 0
        return ['-o', 'm', *self.words[:at], *self.words[at + len(fuel):]]


def programs(word):
    """The programs of the table whose names hold the word."""
    for case in cases.read():
        runs = case.words[:1] == ['run'] and not HELP & set(case.words)
        if runs and case.files and not case.failing and word in report.label(case):
            yield Program(case)


class Ended:
    """What a process of the program left: its output, its line on err without the statistics, these, and its status."""

    def __init__(self, left):
        stats = judges.STATS.search(left.lines)
        self.output, self.status = left.output, left.status
        self.line = left.lines[:stats.start()] if stats else left.lines
        self.stats = stats.group(0) if stats else b''


def built_wrong(built):
    """What a build left that it shouldn't, or None."""
    if (built.output, built.line, built.status) == (b'', b'', 0):
        return None
    return 'build left %r, %r and status %d' % (built.output, built.line, built.status)


def difference(ran, executed):
    """Where `exec` of the module left something else than `run`, or None."""
    if executed.output != ran.output:
        one, other = report.shown(ran.output, executed.output), report.shown(executed.output, ran.output)
        return 'run printed %s, and exec %s' % (one, other)
    if executed.stats != ran.stats:
        return 'run has the statistics %r, and exec %r' % (ran.stats, executed.stats)
    if executed.status != ran.status:
        return 'run has status %d, and exec %d' % (ran.status, executed.status)
    fault, stopped = FAULT.fullmatch(ran.line), judges.STOPPED.fullmatch(executed.line)
    if fault and stopped:
        alike = fault.group(1).decode() == KINDS[int(stopped.group(1).split()[1]) - 1]
    else:
        alike = ran.line == executed.line
    return None if alike else 'run tells %r, and exec %r' % (ran.line, executed.line)


def tried(command, program):
    """The module of a program with how it ends, where the program's own two ways and wabt agree; REFUSED where it isn't compiled;
    or what is wrong."""
    def call(words, given=b''):
        return Ended(report.run([command, *words], folder, input=given))
    with report.folder_with(program.files) as folder:
        ran = call(['run', '--stats', *program.words], program.input)
        if ran.status in NOT_COMPILED and not ran.stats:
            return REFUSED
        built = call(['build', *program.words_of_build()])
        executed = call(['exec', '--stats', *program.fuel(), 'm'], program.input)
        wrong = built_wrong(built) or difference(ran, executed)
        if wrong is None and judges.has_wabt() and not judges.wabt_accepts(folder):
            wrong = 'wabt refuses the module'
        if wrong is not None:
            return wrong
        with open(os.path.join(folder, 'm'), 'rb') as file:
            return file.read(), judges.Run(judges.end_of(executed.line, executed.status), executed.output)


def answers_of_v8(tasks):
    """What V8 says of each module, none where node is missing."""
    if not judges.has_node():
        return [(True, None)] * len(tasks)
    parts, answers = [tasks[at:at + TASKS] for at in range(0, len(tasks), TASKS)], []
    for part, found in zip(parts, report.side_by_side(functools.partial(judges.v8, stack=STACK), parts)):
        answers += [(True, judges.Run(found))] * len(part) if isinstance(found, str) else found
    return answers


def compare_with_v8(told, agreed):
    """Lets V8 judge the modules, and compares its ends."""
    tasks = [(module, program.input, not program.fuel()) for program, (module, _) in agreed]
    for (program, (_, wanted)), (valid, run) in zip(agreed, answers_of_v8(tasks)):
        if not valid:
            told.count(program.name, 'V8 refuses the module')
        elif run is not None and run != wanted:
            told.count(program.name, 'exec: %s; V8: %s' % (wanted, run))
        else:
            told.count(program.name, None)


def try_all(command, told, word=''):
    """Tries the programs whose names hold the word."""
    every, agreed = list(programs(word)), []
    if every:
        judges.tell_missing(told)
    told.part('programs, their modules and other engines', len(every))
    for place, (program, found) in enumerate(zip(every, report.side_by_side(functools.partial(tried, command), every))):
        told.tell(place)
        if found == REFUSED:
            told.leave_out('programs of cases that are refused, so that they have no module')
        elif isinstance(found, str):
            told.count(program.name, found)
        else:
            agreed.append((program, found))
    compare_with_v8(told, agreed)


if __name__ == '__main__':
    sys.exit(report.of_script(__doc__, try_all))
