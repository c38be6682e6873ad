"""Judges sources that have contracts, where the program takes them.

- Without the option `--contracts` the module of a source is that of the source whose contracts are blanked.
- With it, what is refused without it is refused alike, and what has no contracts has the same module.
- With it the program's ways agree, V8 and wabt take the module, and V8 runs it alike; and the run is that of the source in which
  the checks are written as `assert` statements (weaving.py), but for the place of a check that fails. What is refused with it is
  refused there too, unless a condition isn't quiet."""
import re

import programs
from engine_verdicts import engines_agree
from report import Left
from source_answers import FAULT, building, checking, compiled, refusal_of, running
from verdicts import SPENT, require
from weaving import Woven

FLAGS = ('--contracts',)
NOT_QUIET = 'E46'
CLAUSE = re.compile(rb'\b(?:pre|post|invariant)\b')     # what each contract begins with


def of_refused(host, checked):
    """A source that is refused without the option."""
    require(host.call(*checking(FLAGS)) == checked, 'contracts change nothing of a refusal', checked.lines)


def of_accepted(host, one, made):
    """A source that is accepted without the option, of which this was made."""
    woven = Woven(one.content) if CLAUSE.search(one.content) else None
    if woven is None or woven.is_empty:
        if one.fully:
            same_module(host, made, building(FLAGS), 'the option changes nothing of a source without contracts')
        return
    host.put('f.sa', woven.blanked)
    same_module(host, made, building(), 'without the option contracts are dropped')
    host.put('f.sa', one.content)
    refused = refusal_of(one.content, host.call(*checking(FLAGS)))
    require(not (refused and one.kind == 'typed'), 'contracts that are well typed and quiet are accepted', refused)
    if refused:
        refused_woven(host, one.content, woven, refused)
    else:
        as_woven(host, one.content, woven)


def same_module(host, made, words, promise):
    """The program builds the same module by these words."""
    built = host.call(*words)
    require(built == Left() and host.content('m') == made.module, promise, built)


def refused_woven(host, text, woven, refused):
    """What the checks break is broken where they are written as statements, too. Limits of a body may be met by one alone."""
    host.put('f.sa', woven.text)
    found = refusal_of(woven.text, host.call(*checking()))
    host.put('f.sa', text)
    if refused[2] != NOT_QUIET:
        require(found is not None, 'a check is refused where it is a statement', refused)


def as_woven(host, text, woven):
    """The run with checks is that of the woven source."""
    with_checks = compiled(host, text, FLAGS)
    engines_agree(host, with_checks.asked())
    host.put('f.sa', woven.text)
    wanted = programs.Ended(host.call(*running()))
    host.put('f.sa', text)
    require(wanted.stats, 'checks that are accepted are well typed where they are statements', wanted.line)
    ran = with_checks.ran
    if SPENT not in (wanted.line, ran.line):
        same = (ran.output, ran.status) == (wanted.output, wanted.status) and same_fault(ran.line, wanted.line, woven.lines)
        require(same, 'checks do what statements would do', 'with checks %r %r' % (ran.line, ran.output[-200:]),
                'as statements %r %r' % (wanted.line, wanted.output[-200:]))


def same_fault(line, wanted, lines):
    """Whether the fault is the wanted one: of its kind, and at its place or in one of the lines of the contracts."""
    one, other = FAULT.fullmatch(line), FAULT.fullmatch(wanted)
    if one is None or other is None:
        return line == wanted
    return one.group(3) == other.group(3) and (line == wanted or int(one.group(2)) in lines)
