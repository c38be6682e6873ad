"""Compares what the program says of a module with V8 and wabt."""
from __future__ import annotations

import dataclasses

import judges
import modules
from reader import Reading
from verdicts import GIVEN, require


@dataclasses.dataclass
class Asked:
    """A module of which the other engines are asked: whether V8 is to run it, how it ended here, and what the reader says of its
    bytes, where they may be no module."""
    module: bytes
    run: bool
    wanted: judges.Run
    reading: Reading | None = None

    def is_refused(self):
        return self.wanted.end in modules.REFUSED

    def may_be_taken(self):
        """Whether the bytes break rules of the profile alone, so that other engines may take them."""
        return self.reading is not None and self.reading.malformed is not None and self.reading.later

    def has(self, notes):
        """Whether the reader noticed one of these."""
        return self.reading is not None and bool(self.reading.notes & notes)


def v8_agrees(host, asked):
    """V8 judges the module alike and runs it alike. It has a stack of its own, and may lack memory that is there here. It doesn't tell
    imports by their types, so what isn't linked here may be run there, for ever too: of such a module it isn't asked."""
    if host.v8 is None:
        return
    answer = host.v8.ask(asked.module, GIVEN, asked.run and not asked.is_refused())
    require(answer is not None, 'V8 judges a module alike', 'it gives no answer')
    valid, run = answer
    if not (valid and asked.may_be_taken() or asked.has(modules.V8_JUDGES_OTHERWISE)):
        require(valid != asked.is_refused(), 'V8 judges a module alike', 'here %s' % asked.wanted.end, 'V8 ' + modules.verdict(valid))
    if run is not None and 'too deep' not in (run.end, asked.wanted.end):
        require(run == asked.wanted, 'V8 runs a module alike', 'here %s' % asked.wanted, 'V8 %s' % run)


def wabt_agrees(host, asked, name):
    """wabt judges the validity of the module in a file alike, where it is known to judge by the same rules."""
    unended = asked.reading is not None and asked.reading.malformed in (modules.BODY_WITHOUT_END, modules.INITIAL_WITHOUT_END)
    if host.wabt is None or unended or asked.has(modules.WABT_JUDGES_OTHERWISE):
        return
    accepted = host.wabt_accepts(name)
    if not (accepted and asked.may_be_taken()):
        require(accepted != asked.is_refused(), 'wabt judges a module alike', 'here %s' % asked.wanted.end,
                'wabt ' + modules.verdict(accepted))


def engines_agree(host, asked, name='m'):
    """Both judge the module in this file alike."""
    wabt_agrees(host, asked, name)
    v8_agrees(host, asked)
