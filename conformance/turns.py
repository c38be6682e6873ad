#!/usr/bin/env python3
"""turns.py PROGRAM TREE [--seed S] [--count N] [--only WORD] [--slow]

Compares programs compiled by PROGRAM with their meaning, and the machine steps of their runs with the turns that they spend.

The programs are those of the table of cases with the words `run ..`, no failing device, no flag `--contracts` and an accepted
source, the examples, some that spend turns with little else to do, and N random ones, 100 without --count, from the number S on
(see random_programs.py). TREE is the program `dump_typed`, whose tree meaning.py runs. `PROGRAM run --stats` has to leave the output
and the end of that run, the same status or the same fault in the same line, and the steps have to be

- at least as many as the turns, and
- at most K times one more than the turns, where K is the program's bound: 1000, and a million times one more than the nodes and
  variables of the largest feature, times one more than the attributes of the largest class and the types together.

Where the fuel is spent, the turns that the bound gives for it have to be too few as well, and what was put is a front of what
the meaning puts. Prints each program that differs, the least and the greatest number of steps for a turn, and a last line
'N passed, M failed'; the status is 1 where any failed."""
import argparse
import functools
import glob
import os
import sys

import judges
import meaning
import programs
import random_programs
import report

EXAMPLES = os.path.join(os.path.dirname(os.path.abspath(__file__)), '..', 'examples', '*.sa')
MOST_TURNS = 20_000_000      # a run with more turns takes minutes here, and is left out without --slow
SPENT = b'fuel spent\n'      # the line where the fuel is spent
NODES = {'Int', 'Bool', 'Char', 'Text', 'VoidOf', 'Me', 'Var', 'Exception', 'IsVoid', 'New', 'NewArray', 'Items', 'Call', 'IterCall',
         'Bind', 'Swapped', 'And', 'Or', 'Widen', 'Let', 'Do', 'If', 'Loop', 'Leave', 'TypeCase', 'Protect', 'Return', 'Yield',
         'Quit', 'Raise', 'Stop'}
ARMS = {'TypeCase': 2, 'Protect': 2}   # the place of the branches in these statements


def nodes(part):
    """How many nodes a part of a typed tree has: statements, expressions, and branches of typecases and protects."""
    count, waiting = 0, [part]
    while waiting:
        part = waiting.pop()
        if part and isinstance(part[0], str) and part[0] in NODES:
            count += 1 + (len(part[ARMS[part[0]]]) if part[0] in ARMS else 0)
        waiting.extend(child for child in part if isinstance(child, list))
    return count


def bound(tree):
    """The most machine steps for one more than the turns."""
    features = [nodes(feature['body']) + len(feature['vars']) for feature in tree['features']]
    starts = [nodes(shared['start']) for shared in tree['shareds'] if shared['start'] is not None]
    attributes = max(info['slots'] for info in tree['types'])
    return 1000 + 1_000_000 * (max(features + starts) + 1) * (attributes + len(tree['types']) + 1)


class Words:
    """The words behind `run`: the files, the room in KiB and the fuel, or None."""

    def __init__(self, words):
        self.files, self.room, self.fuel = [], meaning.ROOM, None
        words = [part for word in words for part in (word.split('=', 1) if word.startswith('--') else [word])]
        while words:
            word = words.pop(0)
            if word == '--room':
                self.room = int(words.pop(0))
            elif word == '--fuel':
                self.fuel = int(words.pop(0))
            elif word != '--':
                self.files.append(word)


def front_of(short, long):
    return long[:len(short)] == short


def wrong_end(answer, ran, files):
    """Where the program ended otherwise than by its meaning, or None."""
    if answer.end[0] == 'ended':
        wanted = (answer.end[1], b'')
    elif answer.end[0] == 'stopped':
        _, kind, at = answer.end
        name = (['prelude'] + files)[at[0]]
        wanted = (121, b'%s:%d: fault: %s\n' % (name.encode(), answer.line, programs.KINDS[kind - 1].encode()))
    else:
        return 'the meaning is %s' % (answer.end,)
    if (ran.status, ran.line) != wanted:
        return 'the meaning ends by %r, and the program by %r' % (wanted, (ran.status, ran.line))
    if ran.output != answer.output:
        return 'the meaning puts %r, and the program %r' % (answer.output[-200:], ran.output[-200:])
    return None


def wrong_steps(turns, steps, most):
    if steps < turns:
        return '%d turns, but %d steps' % (turns, steps)
    if steps > most * (turns + 1):
        return '%d turns, but %d steps, where %d are the most for a turn' % (turns, steps, most)
    return None


def wrong_front(tree, given, words, ran, most):
    """Where a program whose fuel is spent contradicts its meaning, or None."""
    few = meaning.run_tree(tree, given, words.room, max(words.fuel // most - 1, 0))
    if few.end != ('spent',) and words.fuel >= most:
        return 'the meaning ends by %s in fewer turns than the fuel is for' % (few.end,)
    if few.end == ('spent',) and not front_of(few.output, ran.output):
        return 'the meaning puts %r, and the program only %r' % (few.output[-200:], ran.output[-200:])
    many = meaning.run_tree(tree, given, words.room, min(words.fuel, MOST_TURNS))
    if many.end[0] == 'stuck' or not front_of(ran.output, many.output):
        return 'the meaning is %s and puts %r, and the program %r' % (many.end, many.output[-200:], ran.output[-200:])
    return None


class Tried:
    """What came of a program: why it was left out, or what is wrong with it, and its turns and steps where it ended."""

    def __init__(self, left_out=None, wrong=None, turns=None, steps=None):
        self.left_out, self.wrong, self.turns, self.steps = left_out, wrong, turns, steps


def tried(program, tree_program, slow, task):
    """Runs a program in both ways."""
    _, files, words, given = task
    with report.folder_with(files) as folder:
        ran = programs.Ended(report.run([program, 'run', '--stats', *words], folder, input=given))
        if not ran.stats:
            return Tried(left_out='programs of cases that are refused')
        words = Words(words)
        tree = meaning.dump_typed(tree_program, words.files, folder)
    if isinstance(tree, list):
        return Tried(wrong='the tree is refused: %s' % tree)
    most, steps = bound(tree), int(judges.STATS.search(ran.stats).group(1))
    if ran.line == SPENT:
        return Tried(wrong=wrong_front(tree, given, words, ran, most))
    answer = meaning.run_tree(tree, given, words.room, sys.maxsize if slow else MOST_TURNS)
    if answer.end == ('spent',):
        return Tried(left_out='programs with more turns than %d' % MOST_TURNS)
    wrong = wrong_end(answer, ran, words.files) or wrong_steps(answer.turns, steps, most)
    return Tried(None, wrong, answer.turns, steps)


def try_one(program, tree_program, slow, task):
    """Tries a program in a thread with a large stack. What has no meaning is told."""
    try:
        return meaning.with_large_stack(lambda: tried(program, tree_program, slow, task))
    except (IndexError, KeyError, TypeError, AttributeError) as error:
        return Tried(wrong='the tree has no meaning: %r' % error)


def sources():
    """Programs that spend turns with little else to do, by their names."""
    text = 'a' * 70_000
    yield 'loops that are left in their first round', main_of('loop break!; end; ' * 200)
    yield 'loops inside one another that are left in their first round', main_of('loop ' * 90 + 'break!; end; ' * 90)
    yield 'initialisers of shareds', main_of('', ''.join('shared s%d:INT := %d; ' % (n, n) for n in range(100)))
    yield 'two texts that there is no room for', main_of('x ::= "%s"; y ::= x + x;' % text)
    yield 'a part of a text that there is no room for', main_of('x ::= "%s"; y ::= x.substring(0, 69999);' % text)
    yield 'a text of an array that there is no room for', main_of('x ::= #ARRAY{CHAR}(8000); y ::= STR::of(x, 7000);')


def main_of(body, shareds=''):
    return 'class MAIN is %smain is %s end; end;' % (shareds, body)


def tasks(given):
    """Each program: its name, its files, the words behind `run`, and its input."""
    for case in programs.programs(given.only):
        if '--contracts' not in case.words:     # the typed tree is that without checks
            yield case.name, case.files, case.words, case.input
    for path in sorted(glob.glob(EXAMPLES)):
        with open(path, 'rb') as file:
            yield from task_of(os.path.basename(path), file.read(), given.only)
    for name, text in sources():
        yield from task_of(name, text.encode(), given.only)
    for number in range(given.seed, given.seed + given.count):
        yield from task_of('random program %d' % number, random_programs.program(number).encode(), given.only)


def task_of(name, text, word):
    """A program of one file, in the least room, where its name holds the word."""
    if word in name:
        yield name, {'f.sa': text}, ['--room', '64', 'f.sa'], b''


def try_all(told, given):
    """Tries the programs, and gives the steps for a turn of each that ended, with its name."""
    every, ratios = list(tasks(given)), []
    told.part('steps and turns', len(every))
    work = functools.partial(try_one, os.path.abspath(given.program), os.path.abspath(given.tree), given.slow)
    for task, one in zip(every, report.side_by_side(work, every)):
        if isinstance(one, report.Late):
            told.count(task[0], one)
        elif one.left_out:
            told.leave_out(one.left_out)
        else:
            told.count(task[0], one.wrong)
            if one.turns:
                ratios.append((one.steps / one.turns, task[0]))
    return ratios


def main():
    words = argparse.ArgumentParser(description=__doc__, formatter_class=argparse.RawDescriptionHelpFormatter)
    words.add_argument('program')
    words.add_argument('tree')
    words.add_argument('--seed', type=int, default=0)
    words.add_argument('--count', type=int, default=100)
    words.add_argument('--only', default='')
    words.add_argument('--slow', action='store_true')
    given = words.parse_args()
    told = report.Report()
    ratios = try_all(told, given)
    told.close_part()
    for word, ratio in (('least', min(ratios)), ('most', max(ratios))) if ratios else ():
        told.line('%s steps for a turn: %.2f (%s)' % (word, *ratio))
    return told.close()


if __name__ == '__main__':
    sys.exit(main())
