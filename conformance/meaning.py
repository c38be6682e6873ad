#!/usr/bin/env python3
"""meaning.py TREE FILE.. [--room KIB] [--turns N] [--trace]

Runs the typed tree of a program by the written meaning of the language, on the input from standard input. TREE is the program
`dump_typed`, which prints the tree of the sources in the files. Prints what the program puts, and on standard error how it ended
and how many turns it spent: the status, a fault by its number with the file and the byte at which it stands, or that N turns
weren't enough; with --trace, before that, what became of the instances of iters.

Nothing here is taken from the compiler: values are trees, iters are generators, and there is no machine. `values` has the values,
the state and the ways in which a step ends; `features` what the prelude leaves to the implementation; `calls`, `expressions` and
`statements` the rest."""
import argparse
import concurrent.futures
import json
import subprocess
import sys
import threading

from calls import Activation
from statements import Statements
from values import Failed, Raised, Spent, Stuck

ROOM = 65_536            # KiB, where none is given


class Run(Statements):
    """A whole run of a typed tree."""

    def initialise(self):
        """Evaluates the initialisers of the shareds, each for a turn and with the void of its class as self."""
        for number, shared in enumerate(self.shareds):
            if shared['start'] is not None:
                self.state.turn()
                here = Activation(None, self.void_of(shared['class']), [], 0)
                self.shared_values[number] = self.expression(shared['start'])(here)

    def whole(self):
        """The end of the run: its form, and a status, or a fault and its position."""
        try:
            self.initialise()
            main = self.features[self.main]
            value, _ = self.routine(main, None, [], 0, main.at)
        except (Raised, Failed) as fault:
            return 'stopped', fault.kind, fault.at
        except Spent:
            return 'spent',
        except Stuck as stuck:
            return 'stuck', str(stuck)
        return 'ended', value & 255 if type(value) is int else 0


    def events(self):
        """What became of the instances of iters: each event with the file and the line of the call that started the instance, and
        its number."""
        for event, feature, site, number in self.state.events or ():
            at = self.features[feature].sites[site]['pos']
            yield event, at[0], self.state.line(at), number


class Answer:
    """What a run leaves: its end, the line of a fault, its output, the events of its iters where they were kept, and the turns that it
    spent."""

    def __init__(self, end, run):
        state = run.state
        self.end, self.output, self.events, self.turns = end, bytes(state.output), list(run.events()), state.turns
        self.line = state.line(end[2]) if end[0] == 'stopped' else None

    def trace(self, files):
        """The lines of the events, where these are the names of the files."""
        names = ['prelude'] + files
        return ''.join('%s %s:%d %d\n' % (event, names[file], line, number) for event, file, line, number in self.events).encode()


def run_tree(tree, given, room, most_turns, traced=False):
    """Runs a typed tree in this thread, which needs a stack for 10,000 calls inside one another. The events are kept where it is
    traced."""
    run = Run(tree, given, room, most_turns)
    if traced:
        run.state.events = []
    return Answer(run.whole(), run)


def with_large_stack(work):
    """What `work` gives, in a thread with a stack for deep recursion."""
    sys.setrecursionlimit(10_000_000)
    threading.stack_size(512 << 20)
    with concurrent.futures.ThreadPoolExecutor(1) as pool:
        return pool.submit(work).result()


def dump_typed(program, files, folder=None):
    """The typed tree of the sources in these files, or the rule that refuses them, with a position."""
    done = subprocess.run([program, *files], cwd=folder, capture_output=True, check=True)
    return json.loads(done.stdout)


def main():
    words = argparse.ArgumentParser(description=__doc__, formatter_class=argparse.RawDescriptionHelpFormatter)
    words.add_argument('tree')
    words.add_argument('files', nargs='+')
    words.add_argument('--room', type=int, default=ROOM)
    words.add_argument('--turns', type=int, default=10 ** 9)
    words.add_argument('--trace', action='store_true')
    given = words.parse_args()
    tree = dump_typed(given.tree, given.files)
    if isinstance(tree, list):
        print(*tree, file=sys.stderr)
        return 1
    answer = with_large_stack(lambda: run_tree(tree, sys.stdin.buffer.read(), given.room, given.turns, given.trace))
    sys.stdout.buffer.write(answer.output)
    if given.trace:
        sys.stderr.write(answer.trace(given.files).decode())
    print(*answer.end, '%d turns' % answer.turns, file=sys.stderr)
    return 0


if __name__ == '__main__':
    sys.exit(main())
