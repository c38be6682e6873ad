"""Writes the contracts of a source as what docs/LANGUAGE.md says that they do: as `assert` statements in the bodies, with variables for
results and for what was at the start. The source has to be one of the grammar.

What is woven has the lines of the source, so that a place outside the contracts is told by the same line. `blanked` is the source
without contracts, with blanks in their places."""
from __future__ import annotations

import dataclasses

import source_reader
from source_reader import FEATURES, Grammar

NAME = b'zz_%d'         # of the variables that are put in
WORDS = ('pre', 'post', 'invariant')


@dataclasses.dataclass
class Condition:
    """A condition, as a span of tokens, and the spans of its `result`s and `initial(..)`s, the latter with what stands inside."""
    begin: int
    end: int = 0
    results: list = dataclasses.field(default_factory=list)
    initials: list = dataclasses.field(default_factory=list)


@dataclasses.dataclass
class Routine:
    """A routine or an iter with a body: what it gives, its conditions, and the tokens at which its body begins and ends, and at
    which its returns and yields stand."""
    is_iter: bool
    is_private: bool
    result: bytes | None = None
    pre: Condition | None = None
    post: Condition | None = None
    begin: int = 0
    end: int = 0
    leaves: list = dataclasses.field(default_factory=list)


class Contracts(Grammar):
    """Reads a file, and notes its contracts and the places at which they are checked."""

    def __init__(self, text):
        tokens = source_reader.tokens_of(text)
        super().__init__(tokens, text)
        self.ends = [token.end for token in tokens] + [len(text)] * 2
        self.classes = []           # for each the routines, and the condition of its invariant or None
        self.clauses_at = []        # the spans of clauses and invariants
        self.routine = self.given = self.reading = None
        self.file()

    def class_(self):
        self.classes.append([[], None])
        super().class_()

    def result(self):
        begin = self.at
        super().result()
        self.given = self.between_tokens(begin + 1, self.at) if begin < self.at else None

    def without_access(self):
        if self.next() not in FEATURES:
            super().without_access()
            return
        self.routine = Routine(self.next() == 'INAME', self.symbols[self.at - 1] == 'private')
        self.classes[-1][0].append(self.routine)
        self.sig()
        self.routine.result = self.given
        self.clauses()
        self.routine.begin = self.at
        self.between('is', self.stmts, 'end')
        self.routine.end = self.at - 1

    def clauses(self):
        begin = self.at
        if self.has('pre'):
            self.routine.pre = self.noted(self.expr)
        if self.has('post'):
            self.routine.post = self.noted(lambda: self.condition(True))
        if begin < self.at:
            self.clauses_at.append((begin, self.at))

    def noted(self, part):
        """The condition that is read by this part."""
        self.reading = Condition(self.at)
        part()
        self.reading.end = self.at
        return self.reading

    def invariant(self):
        begin = self.at
        super().invariant()
        self.clauses_at.append((begin, self.at))
        last = self.at - 1 - (self.symbols[self.at - 2] == ';')
        self.classes[-1][1] = Condition(begin + 5, last)

    def stmt(self):
        begin, is_leave = self.at, self.next() in ('return', 'yield')
        super().stmt()
        if is_leave:
            self.routine.leaves.append((begin, self.at))

    def first(self, in_array):
        begin, symbol = self.at, self.next()
        super().first(in_array)
        if symbol == 'result':
            self.reading.results.append(begin)
        elif symbol == 'initial':
            self.reading.initials.append((begin, self.at))

    def between_tokens(self, begin, end):
        """The tokens from one to another, in a line."""
        return b' '.join(self.spelled[begin:end])


class Weaver:
    """The changes that make the woven source of a text: pieces that are put in at places, and spans that are blanked."""

    def __init__(self, text):
        self.text, self.read, self.count = text, Contracts(text), 0
        self.put, self.blanks = [], []
        for begin, end in self.read.clauses_at:
            self.blanks.append((self.read.places[begin], self.read.ends[end - 1]))

    def new_name(self):
        self.count += 1
        return NAME % self.count

    def weave(self):
        for routines, invariant in self.read.classes:
            for routine in routines:
                self.weave_routine(routine, invariant)

    def weave_routine(self, routine, invariant):
        """The checks of a routine."""
        initials = [self.new_name() for _ in routine.post.initials] if routine.post else []
        begun = b''
        if routine.pre:
            begun += b' assert %b;' % self.condition(routine.pre)
        for name, (begin, end) in zip(initials, routine.post.initials if routine.post else ()):
            begun += b' %b ::= %b;' % (name, self.read.between_tokens(begin + 1, end))
        self.put.append((self.read.ends[routine.begin], begun))
        kept = invariant if not (routine.is_iter or routine.is_private) else None
        for begin, end in routine.leaves:
            self.weave_leave(routine, initials, kept, begin, end)
        if routine.result is None and not routine.is_iter:     # whose `result` is an unknown name
            self.put.append((self.read.places[routine.end], b'; ' + self.checks(routine, initials, self.new_name(), kept)))

    def weave_leave(self, routine, initials, invariant, begin, end):
        """The checks at a `return` or a `yield`, whose value is put into a variable first."""
        word, name = self.read.spelled[begin], self.new_name()
        at, has_value = self.read.places[begin], end > begin + 1
        if not has_value:
            self.put.append((at, self.checks(routine, initials, name, invariant)))
        elif routine.result is not None and (routine.post or invariant):
            self.blanks.append((at, self.read.ends[begin]))
            self.put.append((at, b'%b:%b := ' % (name, routine.result)))
            self.put.append((self.read.ends[end - 1], b'; %b%b %b' % (
                self.checks(routine, initials, name, invariant), word, name)))

    def checks(self, routine, initials, name, invariant):
        """The checks behind a result that is in the variable of this name."""
        made = b'assert %b; ' % self.condition(routine.post, name, initials) if routine.post else b''
        return made + (b'if ~void(self) then assert %b; end; ' % self.condition(invariant) if invariant else b'')

    def condition(self, condition, result=None, initials=()):
        """A condition in a line, with variables in place of its `result`s and `initial`s."""
        made, at = [], condition.begin
        named = {begin: (begin + 1, result) for begin in condition.results if result}
        named.update((begin, (end, name)) for (begin, end), name in zip(condition.initials, initials))
        while at < condition.end:
            at, spelled = named.get(at, (at + 1, self.read.spelled[at]))
            made.append(spelled)
        return b'(%b)' % b' '.join(made)

    def woven(self):
        """The text with all changes."""
        text = bytearray(blanked(self.text, self.blanks))
        for at, piece in sorted(self.put, key=lambda put: put[0], reverse=True):
            text[at:at] = piece
        return bytes(text)


def blanked(text, spans):
    """The text with blanks in place of the spans, and all its lines."""
    changed = bytearray(text)
    for begin, end in spans:
        changed[begin:end] = bytes(byte if byte == 10 else 32 for byte in text[begin:end])
    return bytes(changed)


class Woven:
    """A source without its contracts, the source in which they are checked, and the lines in which they stand."""

    def __init__(self, text):
        weaver = Weaver(text)
        self.blanked = blanked(text, weaver.blanks)
        self.lines = {line for begin, end in weaver.blanks for line in lines_between(text, begin, end)}
        self.is_empty = not weaver.blanks
        weaver.weave()
        self.text = weaver.woven()


def lines_between(text, begin, end):
    """The numbers of the lines of a span."""
    first = text.count(b'\n', 0, begin) + 1
    return range(first, first + text.count(b'\n', begin, end) + 1)
