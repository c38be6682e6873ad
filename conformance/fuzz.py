#!/usr/bin/env python3
"""fuzz.py PROGRAM [SECONDS] [--count N] [--seed N] [--sources | --modules] [--jobs N] [--tree TREE] [--keep FOLDER] [--log FILE]
fuzz.py PROGRAM --again FILE.. [--tree TREE]

Makes sources and modules without end (inputs.py), for so many seconds or N of them, and judges what PROGRAM answers by what the pages
promise of every input: source_verdicts.py, contract_verdicts.py and module_verdicts.py have the lists.

The seed, which is printed at the start, and the number of an input are all that it is made of. What breaks a promise is told, and
kept in FOLDER, as it was and made smaller (shrinking.py), with what to type to see it again. N jobs work side by side, one a
processor without --jobs. TREE is the program `dump_typed`; where it is given, programs are run by the written meaning too. FILE gets
a line at the end, and one every five minutes until then: the seed, and how many inputs of each sort were judged since the start."""
import argparse
import collections
import concurrent.futures
import dataclasses
import functools
import itertools
import os
import random
import subprocess
import sys
import time

import inputs
import judges
import kept
import meaning
import module_verdicts
import report
import shrinking
import source_verdicts
import verdicts
from inputs import MODULES, SOURCES, make_module, make_source
from verdicts import Wrong

TOP = os.path.join(os.path.dirname(os.path.abspath(__file__)), '..')
KEPT = os.path.join(TOP, 'out', 'fuzz')
BATCH = 40          # inputs that are judged before they are told
LOGGED = 300        # seconds after which the log has a line again


# ---- judging

def judged(host, one):
    """What is wrong with an input, or None."""
    try:
        if one.ending == SOURCES:
            source_verdicts.of_source(host, one)
        else:
            module_verdicts.of_module(host, one)
    except verdicts.Breach as breach:
        return breach.wrong
    except subprocess.TimeoutExpired as late:
        return Wrong('an answer comes in time', str(late))
    return None


def smaller(host, one, wrong):
    """A smaller input that breaks the same promise. What is made to be well typed or valid is small as it is."""
    def shows(content):
        found = judged(host, one.with_content(content))
        return found is not None and found.promise == wrong.promise

    one = dataclasses.replace(one, kind='changed')
    if not shows(one.content):
        return one
    shrunk = shrinking.of_source if one.ending == SOURCES else shrinking.of_module
    return one.with_content(shrunk(one.content, shows))


@dataclasses.dataclass
class Found:
    """An input that breaks a promise: its number, itself and a smaller one, and what is wrong."""
    number: int
    input: inputs.Input
    small: inputs.Input
    wrong: Wrong


@functools.cache
def host_of(program, tree, folder, library):
    """What judges in this process."""
    own = os.path.join(folder, str(os.getpid()))
    os.mkdir(own)
    return verdicts.Host(program, tree, own, library)


def batch(judging, seed, ways, numbers):
    """How many inputs of each kind were judged, and those that break a promise."""
    host, counts, founds = host_of(*judging), collections.Counter(), []
    for number in numbers:
        one = inputs.made(host, seed, number, ways)
        wrong = judged(host, one)
        counts[one.kind, one.ending] += 1
        if wrong is not None:
            founds.append(Found(number, one, smaller(host, one, wrong), wrong))
    return counts, founds


def work(judging, seed, ways, numbers):
    """The same, with a stack on which the written meaning can run."""
    return meaning.with_large_stack(lambda: batch(judging, seed, ways, numbers))


# ---- telling

class Fuzzing:
    """The report, the seed, the folder in which is kept what breaks a promise, and the path of the log or None."""

    def __init__(self, told, program, tree, seed, folder, log):
        self.told, self.program, self.tree, self.seed, self.folder, self.log_path = told, program, tree, seed, folder, log
        self.counts, self.logged = collections.Counter(), time.monotonic()

    def keep(self, found, name, one):
        """Writes an input, and gives the path of its file."""
        os.makedirs(self.folder, exist_ok=True)
        path = os.path.join(self.folder, '%d-%d-%s.%s' % (self.seed, found.number, name, one.ending))
        with open(path, 'wb') as file:
            file.write(one.content)
        return os.path.relpath(path)

    def tell(self, found):
        """Keeps an input that breaks a promise, as it is and smaller, and tells how to see it again."""
        self.keep(found, found.input.kind, found.input)
        path = self.keep(found, 'small', found.small)
        self.told.count('input %d of seed %d, %s' % (found.number, self.seed, found.input.kind), found.wrong)
        script = os.path.relpath(os.path.abspath(__file__))
        self.told.line('  again: %s %s%s --again %s' % (
            script, os.path.relpath(self.program), ' --tree ' + os.path.relpath(self.tree) if self.tree else '', path))

    def take(self, counts, founds):
        """Counts a batch."""
        self.counts.update(counts)
        self.told.passed += sum(counts.values()) - len(founds)
        for found in founds:
            self.tell(found)
        self.told.tell()
        if time.monotonic() - self.logged > LOGGED:
            self.log()

    def lines(self):
        """How many inputs of each kind there were."""
        return ['%s %s: %d' % (kind, 'sources' if ending == SOURCES else 'modules', count)
                for (kind, ending), count in sorted(self.counts.items())]

    def close(self):
        """Tells how many inputs there were."""
        self.told.close_part()
        for line in self.lines():
            self.told.line(line)
        self.log()

    def log(self):
        """Adds a line to the log that tells of the run up to here."""
        self.logged = time.monotonic()
        if self.log_path is None:
            return
        of = {ending: sum(count for (_, one), count in self.counts.items() if one == ending) for ending in (SOURCES, MODULES)}
        with open(self.log_path, 'a', encoding='utf-8') as file:
            file.write('%s seed %d: %d sources, %d modules, %d wrong (%s)\n' % (
                time.strftime('%H:%M:%S'), self.seed, of[SOURCES], of[MODULES], self.told.failed, ', '.join(self.lines())))


def batches(count, until):
    """The numbers of inputs, some at a time, as long as there is time."""
    for first in itertools.count(0, BATCH):
        end = first + BATCH if count is None else min(first + BATCH, count)
        if first >= end or until is not None and time.monotonic() > until:
            return
        yield range(first, end)


def run_batches(fuzzing, judging, ways, jobs, left):
    """Judges batches side by side, and waits for each that was begun."""
    one = functools.partial(work, judging, fuzzing.seed, ways)
    with concurrent.futures.ProcessPoolExecutor(jobs) as pool:
        waiting = {pool.submit(one, numbers) for numbers in itertools.islice(left, jobs)}
        while waiting:
            done, waiting = concurrent.futures.wait(waiting, return_when=concurrent.futures.FIRST_COMPLETED)
            waiting |= {pool.submit(one, numbers) for numbers in itertools.islice(left, len(done))}
            for future in done:
                fuzzing.take(*future.result())


def try_all(program, told, count=None, seconds=None, seed=1, ways=(make_source, make_module), jobs=None, folder=KEPT, tree=None,
            log=None):
    """Judges so many inputs, or for so many seconds."""
    judges.tell_missing(told)
    told.part('sources and modules without end, seed %d' % seed, count or 0)
    fuzzing = Fuzzing(told, program, tree, seed, folder, log)
    until = None if seconds is None else time.monotonic() + seconds
    if make_module in ways:
        inputs.known_modules(program)   # which the processes of the jobs then have
    with kept.folders() as (quick, library):
        judging = program, tree, quick, library
        run_batches(fuzzing, judging, ways, jobs or report.processors(), batches(count, until))
    fuzzing.close()


def try_again(program, tree, told, paths):
    """Judges the inputs in these files."""
    with kept.folders() as (quick, library):
        host = host_of(program, tree, quick, library)
        for path in paths:
            told.count(path, meaning.with_large_stack(lambda: judged(host, inputs.again(path))))


def given_words():
    words = argparse.ArgumentParser(description=__doc__, formatter_class=argparse.RawDescriptionHelpFormatter)
    words.add_argument('program')
    words.add_argument('seconds', nargs='?', type=float)
    words.add_argument('--count', type=int)
    words.add_argument('--seed', type=int)
    words.add_argument('--jobs', type=int)
    words.add_argument('--tree')
    words.add_argument('--keep', default=KEPT)
    words.add_argument('--log')
    words.add_argument('--again', nargs='+')
    half = words.add_mutually_exclusive_group()
    half.add_argument('--sources', action='store_true')
    half.add_argument('--modules', action='store_true')
    given = words.parse_args()
    if given.seconds is None and given.count is None and not given.again:
        words.error('SECONDS, --count or --again is needed')
    return given


def main():
    given = given_words()
    program, tree, told = os.path.abspath(given.program), given.tree and os.path.abspath(given.tree), report.Report()
    if given.again:
        try_again(program, tree, told, given.again)
        return told.close()
    ways = [make_source] * (not given.modules) + [make_module] * (not given.sources)
    seed = random.SystemRandom().randrange(1 << 32) if given.seed is None else given.seed
    told.line('seed %d' % seed)
    try_all(program, told, given.count, given.seconds, seed, ways, given.jobs, given.keep, tree, given.log)
    return told.close()


if __name__ == '__main__':
    sys.exit(main())
