#!/usr/bin/env python3
"""traces.py PROGRAM [TREE] [--seed S] [--count N] [--only WORD]

Tries what `PROGRAM run --trace` tells of iters. The programs are those of the table of cases with the words `run ..` and no failing
device, the examples, and N random ones, 100 without --count, from the number S on (see random_programs.py). Of each that ends

- output, status and the line of the end are those without the flag;
- the lines before that are a trace: instances are numbered from 0 in the order of their starts; what begins with a start or a
  resumption ends with the yield, the quit or the abandonment of the same instance, and what lies between begins and ends inside it;
  only an instance that has yielded is resumed, or abandoned from outside; and nothing is told of one that has quit or is abandoned;
- where TREE is given, the program `dump_typed`, the lines are those of the events that the run of the tree has by the written
  meaning (meaning.py). Of a program whose fuel is spent they are a front of these.

What docs/ITERS.md shows of traces has to be what the programs there tell: all of it, or what it begins or ends with, as the page
says. A block that has lines of the output too is what out and err take together.

Prints each program that differs, and a last line 'N passed, M failed'; the status is 1 where any failed."""
import argparse
import functools
import glob
import os
import re
import subprocess
import sys

import meaning
import pages
import programs
import random_programs
import report
import turns

MOST_TURNS = 400_000     # a run with more turns has a long trace: its tree isn't run
LINE = re.compile(rb'(start|resume|yield|quit|abandon) ([^\n]*:\d+) (\d+)\n')


class Wrong(Exception):
    """What is wrong with a trace."""


class Instances:
    """What a trace has told of the instances so far: those that are running, the inner ones last, and those that have yielded, each
    with the place of its call."""

    def __init__(self):
        self.started, self.running, self.waiting = 0, [], {}

    def start(self, instance):
        if instance[1] != self.started:
            raise Wrong('instance %d starts after %d others' % (instance[1], self.started))
        self.started += 1
        self.running.append(instance)

    def resume(self, instance):
        self.wake(instance)
        self.running.append(instance)

    def pause(self, instance):
        self.leave(instance)
        self.waiting[instance[1]] = instance[0]

    def leave(self, instance):
        if not self.running or self.running.pop() != instance:
            raise Wrong('instance %d ends or yields, which is not the innermost one that runs' % instance[1])

    def abandon(self, instance):
        if self.running and self.running[-1] == instance:
            self.running.pop()
        else:
            self.wake(instance)

    def wake(self, instance):
        if self.waiting.pop(instance[1], None) != instance[0]:
            raise Wrong('instance %d goes on or ends, which has not yielded' % instance[1])


EVENTS = {b'start': Instances.start, b'resume': Instances.resume, b'yield': Instances.pause, b'quit': Instances.leave,
          b'abandon': Instances.abandon}


def parted(lines):
    """The lines of a trace, and what is behind them."""
    at = 0
    while found := LINE.match(lines, at):
        at = found.end()
    return lines[:at], lines[at:]


def unlawful(trace):
    """What is wrong with the lines of a trace, or None."""
    instances = Instances()
    try:
        for number, line in enumerate(LINE.finditer(trace), 1):
            EVENTS[line.group(1)](instances, (line.group(2), int(line.group(3))))
    except Wrong as wrong:
        return 'line %d of the trace: %s' % (number, wrong)
    return None


def first_difference(told, wanted):
    """The first line in which two traces differ."""
    ours, theirs = told.splitlines() + [b''], wanted.splitlines() + [b'']
    place = next(place for place, (one, other) in enumerate(zip(ours, theirs)) if one != other)
    return 'line %d of the trace is %r, and by the meaning %r' % (place + 1, ours[place], theirs[place])


def unmeant(tree_program, words, given, folder, trace, spent):
    """Where the lines of a trace aren't those of the meaning, or None."""
    tree = meaning.dump_typed(tree_program, words.files, folder)
    answer = meaning.run_tree(tree, given, words.room, MOST_TURNS, traced=True)
    wanted = answer.trace(words.files)
    if trace == wanted or spent and wanted.startswith(trace) or answer.end == ('spent',) and trace.startswith(wanted):
        return None
    return first_difference(trace, wanted)


def tried(program, tree_program, task):
    """What is wrong with the trace of a program, or why it was left out."""
    _, files, words, given = task
    with report.folder_with(files) as folder:
        silent = programs.Ended(report.run([program, 'run', '--stats', *words], folder, input=given))
        if not silent.stats:
            return turns.Tried(left_out='programs of cases that are refused or whose devices fail')
        told = report.run([program, 'run', '--trace', *words], folder, input=given)
        trace, line = parted(told.lines)
        spent = line == turns.SPENT
        wrong = unlawful(trace)
        if wrong is None and tree_program and '--contracts' not in words:
            work = functools.partial(unmeant, tree_program, turns.Words(words), given, folder, trace, spent)
            wrong = meaning.with_large_stack(work)
    if wrong is None and not spent and (told.output, told.status, line) != (silent.output, silent.status, silent.line):
        wrong = 'with its trace it ends by %r, and without by %r' % ((told.status, line), (silent.status, silent.line))
    return turns.Tried(wrong=wrong)


FITS = {'tells': bytes.__eq__, 'begins': bytes.startswith, 'ends': bytes.endswith}


def unlike_page(program, example):
    """Where what a program of a page tells isn't what the page shows of it, or None."""
    with report.folder_with({'f.sa': example.program}) as folder:
        words = [program, 'run', '--trace', 'f.sa']
        apart, together = report.run(words, folder).lines, report.run(words, folder, stderr=subprocess.STDOUT).output
    shown = list(example.traces)
    for how, block in shown:
        told = together if parted(block)[1] else apart
        if not FITS[how](told, block):
            return 'the page says that it %s %s, and it tells %s' % (how, report.shown(block, told), report.shown(told, block))
    read = [block.decode() for _, block in shown]
    unread = [block for block in example.pieces[1::2] if LINE.search(block.encode()) and block not in read]
    return 'the text before the trace that begins %r doesn\'t say what it is' % unread[0][:40] if unread else None


def try_page(program, told, word):
    """Tries what a page shows of traces."""
    examples = [one for one in pages.examples('ITERS.md') if word in one.place]
    told.part('programs of docs/ITERS.md', len(examples))
    for example, wrong in zip(examples, report.side_by_side(functools.partial(unlike_page, program), examples)):
        told.count('%s, with --trace' % example.place, wrong)


def tasks(word, seed, count):
    """Each program: its name, its files, the words behind `run`, and its input."""
    for case in programs.programs(word):
        yield case.name, case.files, [one for one in case.words if one != '--trace'], case.input
    for path in sorted(glob.glob(turns.EXAMPLES)):
        with open(path, 'rb') as file:
            yield from turns.task_of(os.path.basename(path), file.read(), word)
    for number in range(seed, seed + count):
        yield from turns.task_of('random program %d' % number, random_programs.program(number).encode(), word)


def try_all(program, told, word='', tree_program=None, seed=0, count=100):
    """Tries the traces of the programs whose names hold the word."""
    try_page(program, told, word)
    every = list(tasks(word, seed, count))
    told.part('traces of iters', len(every))
    for task, one in zip(every, report.side_by_side(functools.partial(tried, program, tree_program), every)):
        if isinstance(one, report.Late):
            told.count(task[0], one)
        elif one.left_out:
            told.leave_out(one.left_out)
        else:
            told.count(task[0], one.wrong)


def main():
    words = argparse.ArgumentParser(description=__doc__, formatter_class=argparse.RawDescriptionHelpFormatter)
    words.add_argument('program')
    words.add_argument('tree', nargs='?')
    words.add_argument('--seed', type=int, default=0)
    words.add_argument('--count', type=int, default=100)
    words.add_argument('--only', default='')
    given = words.parse_args()
    told = report.Report()
    tree = os.path.abspath(given.tree) if given.tree else None
    try_all(os.path.abspath(given.program), told, given.only, tree, given.seed, given.count)
    return told.close()


if __name__ == '__main__':
    sys.exit(main())
