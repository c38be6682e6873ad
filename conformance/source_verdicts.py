"""Judges what the program answers for a source that nobody has looked at, by what docs/LANGUAGE.md promises of every one.

It is refused by E01 to E08 exactly where source_reader.py says so, with a text of the table, inside the text; a line above it moves
the line of a refusal by one and changes nothing else; `check`, `build` and `run` agree, and a refused build leaves its file. The first
line of `check --all` is that of `check`, and it is the only one where that isn't about a body; what is accepted may be refused by it.

What is accepted has a module that `exec` runs as `run` runs the source, to an end of the table; the steps are within the fuel, with
fuel for all of them the run is the same, and with a step less the fuel is spent; V8 and wabt take the module, and V8 runs it alike.
Where the program `dump_typed` is given, the typed tree has the same end by the written meaning, in at most as many turns as the run
has steps; runs of more than 200,000 steps are interpreted where a source is judged in full alone.

Of one that is judged in full also: a start of its own answers alike, to `check` and to `run`, and each promise is tried by a call of
its own. What has contracts is judged by contract_verdicts.py too."""
import json

import contract_verdicts
import meaning
import programs
import source_reader
import turns
import verdicts
from engine_verdicts import engines_agree
from source_answers import ROOM, building, checking, compiled, executing, refusal_of, refusals_of, running
from verdicts import GIVEN, SPENT, require

OLD = b'what the file held'
ABOVE = b'-- above\n'
OF_BODIES = ('E12', *('E%d' % number for number in range(30, 46)), 'E53', 'E54')     # E12 is a rule of heads too
READ_FIRST = ('E01', 'E02', 'E03', 'E04', 'E05', 'E06', 'E07', 'E08', 'E50')
FEWEST = 1_000          # steps for a turn, which the bound of each program allows
INTERPRETED = 200_000   # steps of a run that is interpreted though its source isn't judged in full


# ---- refusals

def as_read(text, refused):
    """The refusal is the one that the lexical rules, the levels and the grammar give, where they give one."""
    read = source_reader.refusal(text)
    own = (refused[2], refused[1]) if refused and refused[2] in READ_FIRST else None
    require(own == read, 'tokens, levels and grammar are as the page tells', 'expected %s' % (read,), 'came %s' % (refused,))


def with_above(text):
    """A text with a comment above, behind its byte order mark, which is a blank at the beginning of a file alone."""
    mark = source_reader.MARK if text.startswith(source_reader.MARK) else b''
    return mark + ABOVE + text[len(mark):]


def with_a_line_above(host, text, refused, words):
    """A comment above the text moves what is told of it by a line. A program without MAIN is refused at the start of the file."""
    lower = with_above(text)
    host.put('f.sa', lower)
    moved = refusal_of(lower, host.call(*words))
    host.put('f.sa', text)
    wanted = refused
    if refused and refused[0] == b'f.sa' and not (refused[2] == 'E24' and moved == refused):
        wanted = (refused[0], refused[1] + 1, refused[2])
    require(moved == wanted, '%s moves a refusal by a line with a comment above' % words[0], 'expected %s' % (wanted,),
            'came %s' % (moved,))


def refused_alike(host, one, refused, checked):
    """`build` and `run` refuse as `check` does, and the file of a build keeps what it held. Where not all is tried, `build` is
    tried with a line above alone."""
    require(host.call(*running()) == checked, 'run refuses as check does', checked.lines)
    with_a_line_above(host, one.content, refused, building())
    if one.fully:
        with_a_line_above(host, one.content, refused, checking())
        require(host.call(*building()) == checked, 'build refuses as check does', checked.lines)
    require(host.content('m') == OLD, 'a refused build leaves the file', host.content('m')[:40])


def all_told(host, one, refused):
    """`check --all` tells first what `check` tells, and goes on where that is about a body. Without MAIN it has one of its own."""
    told = refusals_of(one.content, host.call(*checking(('--all',))))
    if refused is None or refused[2] == 'E24':
        return
    require(told[:1] == [refused], 'check --all begins as check does', 'expected %s' % (refused,), 'came %s' % (told[:1],))
    require(len(told) == 1 or refused[2] in OF_BODIES, 'check --all goes on behind a body alone', told)


# ---- runs

def fueled(host, one, made):
    """The fuel counts: that of the module, whose steps were enough, and that of the source where all is tried."""
    if made.ran.line == SPENT:
        return
    if made.steps > 0:
        verdicts.too_few(programs.Ended(host.call(*executing(made.steps - 1))), made.executed, made.steps)
    if one.fully:
        verdicts.as_fueled(lambda fuel: programs.Ended(host.call(*running(fuel))), made.ran, made.steps)


def as_meant(host, one, made):
    """The end is that of the typed tree in the interpreter of the written meaning, which spends no more turns than the run has
    steps."""
    if host.tree is None or made.ran.line == SPENT or made.steps > INTERPRETED and not one.fully:
        return
    tree = json.loads(host.dump_typed('f.sa'))
    require(isinstance(tree, dict), 'the typed tree of an accepted source is there', tree)
    try:
        answer = meaning.run_tree(tree, GIVEN, ROOM, made.steps)
    except (IndexError, KeyError, TypeError, AttributeError) as error:
        require(False, 'a typed tree has a meaning', repr(error))
    wrong = turns.wrong_end(answer, made.ran, ['f.sa'])
    if wrong is None and not answer.turns <= made.steps <= FEWEST * answer.turns:   # no program has a smaller bound
        wrong = turns.wrong_steps(answer.turns, made.steps, turns.bound(tree))
    require(wrong is None, 'a run ends as the written meaning has it', wrong)


def accepted(host, one):
    """Judges a source that is accepted."""
    made = compiled(host, one.content)
    if one.fully:
        with_a_line_above(host, one.content, None, checking())
        again = programs.Ended(host.call_anew(*running()))
        require(vars(again) == vars(made.ran), 'a start of its own answers alike', made.ran.line, again.line)
    fueled(host, one, made)
    as_meant(host, one, made)
    engines_agree(host, made.asked())
    if host.takes_contracts:
        contract_verdicts.of_accepted(host, one, made)


def of_source(host, one):
    """Judges a source. What is wrong comes as a Breach."""
    host.put('f.sa', one.content)
    host.put('m', OLD)
    checked = host.call(*checking())
    refused = refusal_of(one.content, checked)
    require(not (refused and one.kind == 'typed'), 'a program that is well typed is accepted', checked.lines)
    if one.fully or one.kind != 'typed':    # what is made to be well typed is of the grammar
        as_read(one.content, refused)
    if one.fully:
        require(host.call_anew(*checking()) == checked, 'a start of its own answers alike', checked.lines)
        all_told(host, one, refused)
    if not refused:
        accepted(host, one)
        return
    refused_alike(host, one, refused, checked)
    if host.takes_contracts and one.fully:
        contract_verdicts.of_refused(host, checked)
