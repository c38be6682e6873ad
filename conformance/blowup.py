"""What a blow-up is: a small input that is built to cost much, and the answers that it may have."""
from __future__ import annotations

import dataclasses
import typing

import source_answers
from report import Left

NO_MEMORY = [Left(lines=b'out of memory\n', status=125)]


@dataclasses.dataclass
class Blowup:
    """A name, the words of the command, the files, as bytes or by what makes them, and the answers that are right. `is_quick` says
    whether it is answered at once, and `asks_memory` whether a module itself asks for more memory than the bar."""
    name: str
    words: str
    files: dict[str, bytes | typing.Callable[[], bytes]]
    wanted: list[Left]
    is_quick: bool = True
    asks_memory: bool = False

    def contents(self):
        """The files as bytes."""
        return {name: content if isinstance(content, bytes) else content() for name, content in self.files.items()}


def slow(make):
    """What makes the same, but such as isn't answered at once."""
    return lambda *given: dataclasses.replace(make(*given), is_quick=False)


def of_source(words, name, source, wanted):
    """A source in the file `f.sa`."""
    return Blowup(name, words, {'f.sa': source.encode('latin-1')}, wanted)


def accepted():
    """What `check` answers where a source is accepted."""
    return [Left(b'accepted\n')]


def built():
    """What `build` answers where a source is accepted."""
    return [Left()]


def printed(output, status=0):
    """The answer of a run that puts this out."""
    return [Left(output, b'', status)]


def refused(line, code):
    """The answer where a source is refused."""
    return [Left(lines=b'f.sa:%d: %s: %s\n' % (line, code.encode(), source_answers.CODES[code].encode()), status=120)]


def faulted(line, kind):
    """The answer of a run that a fault stops before it puts anything out."""
    return [Left(lines=b'f.sa:%d: fault: %s\n' % (line, kind.encode()), status=121)]


def ended(line, status):
    """The answer of `exec` with a line about the module `m`."""
    return [Left(lines=line.encode() + b'\n', status=status)]


def one_of(*answers):
    """The answers, of which each is right."""
    return [left for some in answers for left in some]
