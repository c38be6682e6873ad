"""What the judging of sources and of modules has in common: the program that is judged, the other judges, and what is wrong.

The program and the tools that it is compared with are kept started (kept.py), each process of the judging has its own, and they
work in a folder in memory. Each call of the program has to end by itself within 10 seconds of a processor and 2 GiB of addresses."""
import dataclasses
import os

import judges
import kept
import programs
import report

SECONDS = 10                # of a processor
PATIENCE = 3_600            # seconds by the clock: a machine that has other work may let an answer wait for long
MEMORY = 2 << 30            # bytes of addresses
FUEL = 2_000_000
GIVEN = b'some input\n\0\xff 12'
SPENT = b'fuel spent\n'
WITH_CONTRACT = b'class MAIN is main pre true is end; end'


@dataclasses.dataclass
class Wrong:
    """What is wrong with an answer: the promise that it breaks, and how."""
    promise: str
    text: str

    def __str__(self):
        return '%s: %s' % (self.promise, self.text)


class Breach(Exception):
    """Carries what is wrong out of the judging."""

    def __init__(self, promise, text):
        super().__init__(promise)
        self.wrong = Wrong(promise, text)


def require(holds, promise, *shown):
    """Ends the judging where the promise is broken."""
    if not holds:
        raise Breach(promise, ' / '.join(str(one) for one in shown))


class Host:
    """The program and the other judges, in a folder. `tree` is the path of the program `dump_typed` or None, and `library` that of
    the library that keeps programs started, or None."""

    def __init__(self, program, tree, folder, library):
        limits = kept.Limits(SECONDS, MEMORY, PATIENCE)
        self.path, self.folder = program, folder
        self.program = kept.program(program, folder, limits, library)
        self.started = kept.Started(program, folder, limits)
        self.tree = kept.program(tree, folder, limits, library) if tree else None
        self.wabt = kept.program('wasm-validate', folder, limits, library) if judges.has_wabt() else None
        self.v8 = judges.V8(programs.STACK, PATIENCE) if judges.has_node() else None
        self.put('f.sa', WITH_CONTRACT)
        self.takes_contracts = self.call('check', 'f.sa').status == 0

    def call(self, *words):
        """What the program left, which has ended by itself."""
        return self.ended(self.program.call(words, GIVEN), words)

    def call_anew(self, *words):
        """The same, by a start of its own."""
        return self.ended(self.started.call(words, GIVEN), words)

    def ended(self, left, words):
        require(left.status >= 0, 'it ends by itself', 'signal %d at %s' % (-left.status, ' '.join(words)))
        require(left.status != report.INTERNAL_ERROR, 'no invariant of the compiler is broken', left.lines)
        return left

    def dump_typed(self, name):
        """The text that the program `dump_typed` gives for a file."""
        left = self.tree.call([name])
        require(left.status == 0, 'the typed tree is told', left)
        return left.output

    def wabt_accepts(self, name):
        """Whether wabt finds a module valid without the features that came after 1.0."""
        return self.wabt.call([*judges.WABT_FEATURES, name]).status == 0

    def put(self, name, content):
        with open(os.path.join(self.folder, name), 'wb') as file:
            file.write(content)

    def content(self, name):
        with open(os.path.join(self.folder, name), 'rb') as file:
            return file.read()


def steps_of(ended, length):
    """The steps that the statistics tell, which fit the length of the module and the fuel."""
    found = judges.STATS.search(ended.stats)
    require(found, 'a run tells its statistics', ended.line)
    require(int(found.group(2)) == length, 'the statistics have the length of the module', ended.stats, length)
    steps = int(found.group(1))
    require(steps <= FUEL and (ended.line == SPENT) == (steps == FUEL and ended.status == 122), 'the steps are within the fuel',
            ended.stats, ended.line)
    return steps


def enough(same, ended, steps):
    """A run with fuel for all its steps is the same."""
    require((same.output, same.line, same.status, told_steps(same)) == (ended.output, ended.line, ended.status, steps),
            'the fuel of all steps is enough', steps, same.line, same.stats)


def too_few(less, ended, steps):
    """A run with a step less is spent, with a front of the output."""
    require(less.line == SPENT and less.status == 122 and told_steps(less) == steps - 1 and ended.output.startswith(less.output),
            'a step less is too few', steps, less.line, less.stats)


def told_steps(ended):
    """The steps that the statistics tell, or None."""
    found = judges.STATS.search(ended.stats)
    return int(found.group(1)) if found else None


def as_fueled(call, ended, steps):
    """What is spent, and what isn't. `call` runs the same with so much fuel."""
    if ended.line != SPENT:
        enough(call(steps), ended, steps)
        if steps > 0:
            too_few(call(steps - 1), ended, steps)
