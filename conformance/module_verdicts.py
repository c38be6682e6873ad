"""Judges what the program answers for a module that nobody has looked at, by what docs/WEBASSEMBLY.md promises of every one.

`exec` ends in one of the ways of the table; the module is malformed exactly where reader.py says so; the steps are within the fuel;
with fuel for all steps and a custom section behind the module the run is the same, and with a step less the fuel is spent; V8 and
wabt judge the validity alike, and V8 runs it alike. Of one that is judged in full also: the same holds of each of these calls by
itself, and a start of its own answers alike."""
import binary
import judges
import programs
import verdicts
from engine_verdicts import Asked, engines_agree
from reader import Reader, Reading
from source_answers import executing
from verdicts import FUEL, SPENT, require

MOST_PAGES = 8192           # a module that may have more memory than this many pages may be answered by want of memory
NO_MEMORY = (b'out of memory\n', 125)
SECTION = binary.section(0, binary.counted(b'x') + b'any')
REFUSED = ('malformed', 'invalid')
NOT_RUN_BY_V8 = ('spent', 'too deep', 'want of memory')   # and what isn't linked here, which may run for ever there


class Memory(Reader):
    """A reader that notes the most pages of a memory, or elements of a table, that a module may have."""
    most = 0

    def limits(self):
        least, most = super().limits()
        self.most = max(self.most, 65536 if most is None else most)
        return least, most


def may_want_memory(module, reading):
    """Whether a module may take more memory than there is: its memory is large, or its functions have many locals."""
    reader = Memory(module)
    reader.module()
    return reader.most > MOST_PAGES or 'many locals' in reading.notes


def executed(host, fuel=FUEL):
    """How the module runs."""
    return programs.Ended(host.call(*executing(fuel)))


def end_of(ended):
    """The end of a run, by its word."""
    return 'want of memory' if (ended.line, ended.status) == NO_MEMORY else judges.end_of(ended.line, ended.status)


def end_is_told(module, reading, end):
    """The end is one of the table, and malformed exactly where the reader says so."""
    require(not end.startswith('status'), 'an end is one of the table', end)
    require((end == 'malformed') == (reading.malformed is not None), 'a module is malformed as the page tells', end, reading.malformed)
    require(end != 'want of memory' or may_want_memory(module, reading), 'memory is there', end)


def same_behind(host, module, ended, fuel):
    """A custom section behind the module changes nothing but its length."""
    host.put('m', module + SECTION)
    other = executed(host, fuel)
    host.put('m', module)
    require((other.output, other.line, other.status) == (ended.output, ended.line, ended.status)
            and verdicts.told_steps(other) == verdicts.told_steps(ended), 'a custom section changes nothing', ended.line, other.line)


def in_full(host, module, ended):
    """Each promise by a call of its own."""
    again = programs.Ended(host.call_anew(*executing(FUEL)))
    require(vars(again) == vars(ended), 'a start of its own answers alike', ended.line, again.line)
    if end_of(ended) not in ('malformed', 'want of memory'):
        same_behind(host, module, ended, FUEL)
    if ended.stats:
        verdicts.as_fueled(lambda fuel: executed(host, fuel), ended, verdicts.steps_of(ended, len(module)))


def in_short(host, module, ended):
    """The same promises by fewer calls: the fuel of all steps is tried with the section behind the module."""
    steps = verdicts.steps_of(ended, len(module)) if ended.stats else FUEL
    if end_of(ended) not in ('malformed', 'want of memory'):
        same_behind(host, module, ended, steps)
    if ended.stats and ended.line != SPENT and steps > 0:
        verdicts.too_few(executed(host, steps - 1), ended, steps)


def of_module(host, one):
    """Judges a module. What is wrong comes as a Breach."""
    module = one.content
    reading = Reading(module)
    host.put('m', module)
    ended = executed(host)
    end = end_of(ended)
    end_is_told(module, reading, end)
    require(one.kind != 'valid' or end not in REFUSED, 'a module that is valid is accepted', end)
    (in_full if one.fully else in_short)(host, module, ended)
    run = end not in NOT_RUN_BY_V8 and not end.startswith('unlinked')
    engines_agree(host, Asked(module, run, judges.Run(end, ended.output), reading))
