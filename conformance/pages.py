#!/usr/bin/env python3
"""pages.py: compares the examples of docs/ with the table of cases.

Each block of docs/LANGUAGE.md, docs/ITERS.md, docs/MOVING.md and docs/ROOM.md that has a class MAIN is the program of a case in the
folder `manual` of the table, and what the page says behind it is what the case wants: what it prints, the fault that stops it, the
code that refuses it, or that it is accepted. Each case of that folder is an example of a page."""
import re
import sys

import cases
import report

PAGES = ['LANGUAGE.md', 'ITERS.md', 'MOVING.md', 'ROOM.md']
FENCE = re.compile(r'^```.*\n', re.M)
PRINTS_TEXT = re.compile(r'\nprints `([^`]*)`')
PRINTS_AND_TELLS = re.compile(r'\nprints `([^`]*)`, and with `--trace` it tells\s*')
PRINTS_BLOCK = re.compile(r'\nprints\s*')
FAULT = re.compile(r'\nis the fault `([^`]*)` in line (\d+)')
REFUSED = re.compile(r'\nis (E\d\d)(?: in line (\d+))?')
TRACE = re.compile(r'`--trace`[^`.]*\b(tells|begins|ends)\b[^`.]*[.:]?\s*\Z')
ACCEPTED = re.compile(r'\nis accepted')


class Example:
    """A program of a page, and the pieces behind it up to the next program, by turns text and blocks."""

    def __init__(self, page, line, program, pieces):
        self.place = '%s:%d' % (page, line)
        self.program, self.pieces = program.encode(), pieces

    @property
    def behind(self):
        """The text behind the program."""
        return self.pieces[0]

    @property
    def block(self):
        """The block that follows this text."""
        return self.pieces[1].encode() if len(self.pieces) > 1 else b''

    @property
    def traces(self):
        """What the page says that the program tells with `--trace`: whether it tells, begins or ends with it, and the text."""
        for text, block in zip(self.pieces[0::2], self.pieces[1::2]):
            if found := TRACE.search(text):
                yield found.group(1), block.encode()


def examples(page):
    """The programs of a page. Its pieces are by turns text and blocks."""
    pieces = FENCE.split(report.text_of('docs', page))
    lines = [1 + sum(piece.count('\n') + 1 for piece in pieces[:place]) for place in range(len(pieces))]
    places = [place for place in range(1, len(pieces), 2) if 'class MAIN is' in pieces[place]]
    for place, end in zip(places, places[1:] + [len(pieces)]):
        yield Example(page, lines[place], pieces[place], pieces[place + 1:end])


def wanted(example):
    """What the page says of the program: the output or None, and the pattern of the lines on err."""
    if match := PRINTS_AND_TELLS.fullmatch(example.behind):
        return match.group(1).encode(), re.escape(example.block.decode())
    if match := PRINTS_TEXT.match(example.behind):
        return match.group(1).encode(), ''
    if PRINTS_BLOCK.fullmatch(example.behind):
        return example.block, ''
    if match := FAULT.match(example.behind):
        return None, r'f\.sa:%s: fault: %s\n' % (match.group(2), match.group(1))
    if match := REFUSED.match(example.behind):
        return b'', r'f\.sa:%s: %s: .*\n' % (match.group(2) or r'\d+', match.group(1))
    if ACCEPTED.match(example.behind):
        return b'accepted\n', ''
    return None, ''


def difference(example, case):
    """How a page and a case differ, or None. On a line of a page the last line feed of an output isn't seen."""
    if case is None:
        return 'no case has this program:\n%s' % example.program.decode()
    output, lines = wanted(example)
    if output is not None and output.rstrip(b'\n') != case.output.rstrip(b'\n'):
        return 'the page says that it prints %r, and the case %r' % (output, case.output)
    if not re.fullmatch(lines, case.lines.decode()):
        return 'the page says that err takes %r, and the case %r' % (lines, case.lines)
    return None


def try_all(told):
    """Compares each example of a page with its case, and asks whether each case of the folder is an example of a page."""
    of_pages = {cases.without_head(case.files['f.sa']): case for case in cases.read() if case.subject.startswith('manual/')}
    found = [example for page in PAGES for example in examples(page)]
    told.part('examples of the pages', len(found) + len(of_pages))
    for example in found:
        told.count(example.place, difference(example, of_pages.get(example.program)))
    used = {example.program for example in found}
    for program, case in of_pages.items():
        told.count(report.label(case), None if program in used else 'no page has this example')


def main():
    told = report.Report()
    try_all(told)
    return told.close()


if __name__ == '__main__':
    sys.exit(main())
