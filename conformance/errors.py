#!/usr/bin/env python3
"""errors.py PROGRAM [--only WORD]

Compares docs/ERRORS.md with what the program tells. Each line on err that the program can end with, by the specs of sa_ast
(Rules.antt, Faults.antt) and of sa_driver (Lines.antt, Status.antt), has one section of the page, which begins with the line and its
status, and the page's contents lead to it. A section has a program or a command line that gives its line, and one that ends well;
each is run in a folder of its own, and has to leave exactly what the page says behind it. --only takes the sections whose names
hold a word. An internal error is the compiler's own, so that its section has no program that gives its line."""
import functools
import os
import re
import sys

import report

PAGE = 'docs/ERRORS.md'
NAMES = {'FILE': r'[\w.]+', 'NAME': r"[\w' ]+"}
CODES = re.compile(r'codes "((?:[^"\\]|\\.)*)"')
PIECE = re.compile(r'(about_place)|(about_file)|\b(file) \+\+|decimal (\w+)|\b((?:rule|fault)_text)\b|invariant_(name)|' + CODES.pattern)
SECTION = re.compile(r'^### (.*)\n\n`(.*)`, status (\d+)\b', re.M)
BLOCK = re.compile(r'^```(.*)\n((?:(?!```).*\n)*)```\n((?:(?!```|#).*\n)*)', re.M)
BEHIND = re.compile(r'(gives|prints|is accepted|ends well)(?: with `(--[^`]*)`)?(?: `([^`]*)`)?')


class Line:
    """A line that the program can end with: its form as the page shows it, what fits the form, and the status."""

    def __init__(self, form, status):
        self.form, self.status = form.replace('{', '').replace('}', ''), status
        self.pattern = re.compile(re.sub(r'\\{(\w+)\\}', lambda name: NAMES.get(name[1], r'\d+'), re.escape(form)))


def forms(expression, texts):
    """The forms of the line that an expression of Lines.antt spells, each with what differs in braces: one for each text of the
    rules or the faults, where the expression speaks of these."""
    found = ['']
    for place, of_file, file, number, family, name, text in PIECE.findall(expression):
        if family:
            found = [form + each for form in found for each in texts[family]]
        else:
            piece = '{FILE}:{LINE}: ' if place else '{FILE}: ' if of_file else '{FILE}' if file else text.removesuffix(r'\n')
            found = [form + (piece or '{%s}' % (number or name).upper()) for form in found]
    return found


def lines():
    """Each line that the program can end with, by its form."""
    texts = {'rule_text': re.findall(r'^rule_text \S+ = ' + CODES.pattern, report.text_of('crates/sa_ast/specs/Rules.antt'), re.M),
             'fault_text': re.findall(r'^fault_text \S+ = ' + CODES.pattern, report.text_of('crates/sa_ast/specs/Faults.antt'), re.M)}
    statuses = dict(re.findall(r'^status_of \(?(\w+).* = (\d+)$', report.text_of('crates/sa_driver/specs/Status.antt'), re.M))
    equations = dict(re.findall(r'^(\w.*?) = (.+)$', report.text_of('crates/sa_driver/specs/Lines.antt'), re.M))
    found = {}
    for left, right in equations.items():
        if match := re.fullmatch(r'line_of_cause sources file \(?(\w+).*', left):
            for form in forms(equations.get(right, right), texts):
                line = Line(form, int(statuses[match[1]]))
                if form:
                    found[line.form] = line
    return found


class Section:
    """A section of the page: its heading, the line and the status that it begins with, and the blocks in it."""

    def __init__(self, heading, form, status, first, text):
        self.heading, self.form, self.status = heading, form, int(status)
        self.examples = list(examples(heading, first, text))

    def anchor(self):
        """What a link to the section ends with."""
        return '#' + re.sub(r'[^\w -]', '', self.heading.lower()).replace(' ', '-')


class Example:
    """A program of the page, or a command line; the program that a command line may speak of; what the page says behind it."""

    def __init__(self, place, is_command, text, source, behind, output):
        self.place, self.is_command, self.text, self.source = place, is_command, text, source
        self.verb, options, told = behind.groups() if behind else (None, None, None)
        self.options = (options or '').split()
        self.told = output if told is None else told


def examples(heading, first, text):
    """The examples of a section, whose text begins at the line `first`. A block that follows a bare `prints` is its output."""
    blocks, source = BLOCK.finditer(text), None
    for block in blocks:
        kind, content, behind = block[1], block[2], block[3].strip()
        following = next(blocks, None) if behind == 'prints' else None
        source = source if kind == 'sh' else content
        place = '%s:%d %s' % (PAGE, first + text.count('\n', 0, block.start()), heading)
        yield Example(place, kind == 'sh', content, source, BEHIND.match(behind), following and following[2])


def sections():
    """The sections of the page."""
    text = report.text_of(PAGE)
    found = list(SECTION.finditer(text))
    ends = [match.start() for match in re.finditer(r'^##', text, re.M)] + [len(text)]
    for match in found:
        end = min(place for place in ends if place > match.start())
        yield Section(*match.groups(), text.count('\n', 0, match.start()) + 1, text[match.start():end])


def wanted(example, known):
    """What an example has to leave, or None where the page doesn't say it."""
    if example.verb == 'gives' and example.told is not None:
        line = next((line for line in known.values() if line.pattern.fullmatch(example.told)), None)
        return line and report.Left(b'', example.told.encode() + b'\n', line.status)
    if example.verb == 'prints' and example.told is not None:
        return report.Left(example.told.encode().rstrip(b'\n'))
    return {'is accepted': report.Left(b'accepted'), 'ends well': report.Left()}.get(example.verb)


def left_by(program, example):
    """What an example leaves. A program is the file f.sa, and a command line calls the program by the name `sather`."""
    with report.folder_with({'f.sa': example.source.encode()} if example.source else {}) as folder:
        if example.is_command:
            with report.folder_with({}) as beside:
                os.symlink(program, os.path.join(beside, 'sather'))
                path = os.pathsep.join([beside, os.environ.get('PATH', os.defpath)])
                return report.run(['sh', '-c', example.text], folder, env={**os.environ, 'PATH': path})
        command = 'check' if example.verb == 'is accepted' else 'run'
        return report.run([program, command, *example.options, 'f.sa'], folder)


def tried(program, known, example):
    """What differs in an example, or None. A last line feed of the output isn't seen, and no output beside a line on err."""
    expected = wanted(example, known)
    if expected is None:
        return 'the page doesn\'t say what it leaves, or says a line that no ending has'
    left = left_by(program, example)
    left.output = b'' if expected.lines else left.output.rstrip(b'\n')
    return report.difference(expected, left)


def fault_of(section, known, contents):
    """What is wrong with a section as it stands, or None."""
    line = known.get(section.form)
    if line is None or line.status != section.status:
        return 'no ending has this line with this status'
    if section.heading not in section.form:
        return 'its heading isn\'t a part of its line'
    if '](%s)' % section.anchor() not in contents:
        return 'the contents don\'t lead to it'
    if section.status == report.INTERNAL_ERROR:
        return 'it has examples' if section.examples else None
    if not any(example.verb == 'gives' and line.pattern.fullmatch(example.told or '') for example in section.examples):
        return 'none of its examples gives its line'
    if not any(example.verb not in ('gives', None) for example in section.examples):
        return 'none of its examples ends well'
    return None


def try_all(program, told, word=''):
    """Compares the sections whose names hold the word, and asks whether each ending has exactly one."""
    known, found = lines(), list(sections())
    contents = report.text_of(PAGE).partition('\n## ')[0]
    chosen = [section for section in found if word in 'errors: ' + section.heading]
    of_chosen = [example for section in chosen for example in section.examples]
    told.part('the errors that docs/ERRORS.md tells', len(chosen) + len(of_chosen))
    for section in chosen:
        told.count('errors: ' + section.heading, fault_of(section, known, contents))
    for example, wrong in zip(of_chosen, report.side_by_side(functools.partial(tried, program, known), of_chosen)):
        told.count(example.place, wrong)
    for form in known if not word else ():
        count = sum(section.form == form for section in found)
        if count != 1:
            told.count(form, 'it has %d sections in %s' % (count, PAGE))


if __name__ == '__main__':
    sys.exit(report.of_script(__doc__, try_all))
