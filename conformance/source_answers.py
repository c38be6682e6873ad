"""What the program answers for a source: an acceptance or a refusal, a module, and how it runs. What is none of the answers that
docs/LANGUAGE.md tells comes as a Breach."""
import dataclasses
import re

import judges
import programs
import report
import verdicts
from engine_verdicts import Asked
from grammar import PRELUDE_LINES
from report import Left
from verdicts import FUEL, SPENT, require

ACCEPTED = Left(b'accepted\n')
REFUSAL = re.compile(rb'(f\.sa|prelude):([1-9][0-9]*): (E[0-9]{2}): ([^\n]*)\n')
FAULT = re.compile(rb'(f\.sa|prelude):([1-9][0-9]*): fault: ([^\n]*)\n')
ROOM = 64       # KiB


def texts_of_codes():
    """The text of each code, from the table in docs/LANGUAGE.md."""
    rows = re.findall(r'^\| (E\d\d(?:, E\d\d)*) \| ([^|]*) \|', report.text_of('docs', 'LANGUAGE.md'), re.M)
    return {code: text for codes, texts in rows for code, text in zip(codes.split(', '), texts.split(', '))}


CODES = texts_of_codes()


def checking(flags=()):
    """The words that check the source."""
    return 'check', *flags, 'f.sa'


def building(flags=()):
    """The words that make the module."""
    return 'build', '-o', 'm', '--room', str(ROOM), *flags, 'f.sa'


def running(fuel=FUEL, flags=()):
    """The words that run the source within so much fuel."""
    return 'run', '--stats', '--room', str(ROOM), '--fuel', str(fuel), *flags, 'f.sa'


def executing(fuel):
    """The words that run the module within so much fuel."""
    return 'exec', '--stats', '--fuel', str(fuel), 'm'


# ---- refusals

def lines_of(text, name):
    """How many lines a refusal or a fault may stand in."""
    return PRELUDE_LINES if name == b'prelude' else text.count(b'\n') + 1


def refusal_of(text, left):
    """The file, the line and the code of a refusal, or None where the source is accepted. Another answer is none of `check`."""
    if left == ACCEPTED:
        return None
    found = REFUSAL.fullmatch(left.lines)
    require(found and left.status == 120 and not left.output, 'check accepts or refuses', left)
    name, line, code, what = found.groups()
    require(CODES.get(code.decode()) == what.decode('latin-1'), 'a refusal has the text of its code', left.lines)
    require(int(line) <= lines_of(text, name), 'a refusal stands inside the text', left.lines)
    return name, int(line), code.decode()


def refusals_of(text, left):
    """The refusals that `check --all` tells, none where the source is accepted."""
    if left == ACCEPTED:
        return []
    require(left.lines.endswith(b'\n'), 'check --all accepts or refuses', left)
    return [refusal_of(text, Left(left.output, line, left.status)) for line in left.lines.splitlines(keepends=True)]


# ---- runs

@dataclasses.dataclass
class Compiled:
    """What came of an accepted source: its module, the run of the source with its steps, and that of the module."""
    module: bytes
    ran: programs.Ended
    executed: programs.Ended
    steps: int

    def asked(self):
        """What other engines are asked of it."""
        ended = judges.Run(judges.end_of(self.executed.line, self.executed.status), self.executed.output)
        return Asked(self.module, self.ran.line != SPENT, ended)


def is_end(text, ran):
    """Whether a run of an accepted source ended in one of the ways of the table."""
    if ran.line == b'':
        return 0 <= ran.status <= 255
    if ran.line == SPENT:
        return ran.status == 122
    found = FAULT.fullmatch(ran.line)
    return bool(found) and ran.status == 121 and found.group(3).decode() in programs.KINDS and \
        int(found.group(2)) <= lines_of(text, found.group(1))


def compiled(host, text, flags=()):
    """What comes of an accepted source, where the program's ways agree."""
    built = host.call(*building(flags))
    require(built == Left(), 'build accepts as check does', built)
    module = host.content('m')
    ran = programs.Ended(host.call(*running(flags=flags)))
    require(is_end(text, ran), 'a run ends in a way of the table', ran.line, ran.status)
    steps = verdicts.steps_of(ran, len(module))
    executed = programs.Ended(host.call(*executing(steps)))
    wrong = programs.difference(ran, executed)
    require(wrong is None, 'exec does what run does, with fuel for the steps of the run', wrong)
    return Compiled(module, ran, executed, steps)
