#!/usr/bin/env python3
"""library.py PROGRAM [--only WORD]

Tries the library:

- lib/tests/NAME.sa, run with lib/NAME.sa, the files that its head says to stand beside it, and lib/tests/NAME.in as its input where
  that is there, has to print lib/tests/NAME.out, tell nothing on err and end with status 0, plainly and with `--contracts`; each file of
  lib/ has such a test;
- the example at the head of each file, run with the same input, prints what stands behind its lines, blanks and line feeds aside;
- docs/LIBRARY.md has the classes of the prelude and of lib/ in the sections of their files, and of each class the features that
  aren't private, no more and no fewer, with the heads that stand in the sources.

--only takes the tries whose names hold a word."""
import dataclasses
import functools
import glob
import itertools
import os
import re
import sys

import report

LIB = os.path.join(report.TOP, 'lib')
TESTS = os.path.join(LIB, 'tests')
PRELUDE = os.path.join(report.TOP, 'crates', 'sa_prelude', 'src', 'source.rt')
PAGE = os.path.join(report.TOP, 'docs', 'LIBRARY.md')
OPTIONS = [[], ['--contracts']]

# The text of the prelude, in the source that holds it.
PRELUDE_TEXT = re.compile(r'br#"(.*?)"#', re.S)
# What a source is made of: comments, texts, characters, names with what may belong to them, and other bytes.
TOKEN = re.compile(r'--.*|"(?:\\.|[^"\\])*"|\'(?:\\.|[^\'\\])[0-7]*\'|\$?\w+!?|::=|:=|->|\S')
BEGINS, ENDS = {'is', 'if', 'loop', 'case', 'typecase', 'protect'}, {'end'}
# The words behind which no head of a feature goes on.
BEHIND_HEAD = {'pre', 'post', 'is', ';'}
# In the head of a file: those that stand beside it.
BESIDE = re.compile(r'((?:\w+\.sa(?:, | and )?)+) (?:stand|stands) beside this file')
# On the page: the section of a file, the heading of a class, and a row with heads of features in its first place.
SECTION = re.compile(r'## .*?`([^`]*)`')
CLASS = re.compile(r'### `([^`]*)`')
ROW = re.compile(r'\| (`[^|]*`) \| .')
CODE = re.compile(r'`([^`]*)`')
# A line of the example at the head of a file, and what it says of what is printed.
EXAMPLE = re.compile(r'    (.*)')
PRINTED = re.compile(r'\s-- (.*)')


def bytes_of(path):
    """The bytes of a file, or None where there is none."""
    if not os.path.isfile(path):
        return None
    with open(path, 'rb') as file:
        return file.read()


def names():
    """The names of the library's files."""
    return [os.path.basename(path).removesuffix('.sa') for path in sorted(glob.glob(os.path.join(LIB, '*.sa')))]


def tokens(source):
    """The tokens of a source, without its comments."""
    return [token for token in TOKEN.findall(source) if not token.startswith('--')]


def as_one(words):
    """A head as it is compared: with blanks where two words would run together, and nowhere else."""
    return re.sub(r'(?<=\W) | (?=[^\w$])', '', ' '.join(words))


def classes(source):
    """The heads of the classes of a source, each with the heads of its features that aren't private."""
    found, head, feature, features, depth = {}, [], [], [], 0
    for token in tokens(source):
        if depth == 0 and token == 'is':
            features = found.setdefault(as_one(head), [])
            head = []
        elif depth == 0:
            head = [] if token == ';' else head + [token]
        elif depth == 1 and feature is not None and (token in BEHIND_HEAD or token == 'end'):
            features += shown([word for word in feature if word != 'builtin'])
            feature = None
        elif depth == 1 and feature is not None:
            feature.append(token)
        depth += (token in BEGINS) - (token in ENDS)
        if depth == 1 and token in (';', 'is'):
            feature = []
    return found


def shown(feature):
    """The head of a feature as the page has it, in a list; the list is empty where the feature isn't one to be called."""
    if not feature or feature[0] in ('private', 'invariant', 'stub'):
        return []
    head = as_one(feature)
    return [re.sub(r':=.*' if ':' in feature else r':=[^,]*', '', head)]


def sources():
    """The texts of the prelude and of the library's files, by the names that they have on the page."""
    texts = {'prelude': PRELUDE_TEXT.search(report.text_of(PRELUDE)).group(1)}
    texts.update(('lib/%s.sa' % name, report.text_of(os.path.join(LIB, name + '.sa'))) for name in names())
    return texts


def classes_of_page():
    """The classes of the page, by the name of their file and by their head, each with the heads of features in its rows."""
    found, section, features = {}, None, None
    for line in report.text_of(PAGE).splitlines():
        if line.startswith('## '):
            match = SECTION.match(line)
            section, features = match and match.group(1), None
        elif match := CLASS.match(line):
            features = found.setdefault((section, as_one(tokens(match.group(1)))), [])
        elif features is not None and (match := ROW.match(line)):
            features += [as_one(tokens(head)) for head in CODE.findall(match.group(1))]
    return found


def page_difference(of_source, of_page):
    """Where a class of the page differs from that of the source, or None."""
    if of_page is None:
        return 'the page lacks the class'
    if of_source is None:
        return 'the source has no such class'
    wrong = ['the page lacks %s' % head for head in of_source if head not in of_page]
    wrong += ['the source has no %s' % head for head in of_page if head not in of_source]
    wrong += ['the page has %s twice' % head for head in set(of_page) if of_page.count(head) > 1]
    return '; '.join(wrong) or None


def head(name):
    """The lines of the comment that a file of the library begins with, without their marks."""
    lines = report.text_of(os.path.join(LIB, name + '.sa')).splitlines()
    return [line.removeprefix('--') for line in itertools.takewhile(lambda line: line.startswith('--'), lines)]


def beside(name):
    """The files that stand beside a file of the library, by the comment that it begins with."""
    match = BESIDE.search(' '.join(' '.join(head(name)).split()))
    return re.findall(r'\w+\.sa', match.group(1)) if match else []


def left_by(program, test, name, options):
    """What a program leaves that is run with a file of the library, and with the input of this file's test."""
    given = bytes_of(os.path.join(TESTS, name + '.in')) or b''
    files = {'test.sa': test, **{file: bytes_of(os.path.join(LIB, file)) for file in [name + '.sa', *beside(name)]}}
    with report.folder_with(files) as folder:
        return report.run([program, 'run', *options, *files], folder, input=given)


def test_difference(program, name):
    """What differs in the test of a file of the library, or None."""
    test, wanted = bytes_of(os.path.join(TESTS, name + '.sa')), bytes_of(os.path.join(TESTS, name + '.out'))
    if test is None or wanted is None:
        return 'lib/tests/%s.sa or lib/tests/%s.out is missing' % (name, name)
    for options in OPTIONS:
        wrong = report.difference(report.Left(wanted), left_by(program, test, name, options))
        if wrong:
            return ' '.join([*options, wrong])
    return None


def example_difference(program, name):
    """What differs in the example at the head of a file, or None. One that says nothing of what it prints may print anything."""
    lines = [match.group(1) for line in head(name) if (match := EXAMPLE.match(line))]
    if not lines:
        return 'there is no example at its head'
    program_of_it = 'class MAIN is main is\n%s\nend; end;\n' % '\n'.join(lines)
    wanted = ''.join(match.group(1) for line in lines if (match := PRINTED.search(line)))
    left = left_by(program, program_of_it.encode(), name, OPTIONS[-1])
    printed = b''.join(left.output.split()) if wanted else b''
    return report.difference(report.Left(''.join(wanted.split()).encode()), dataclasses.replace(left, output=printed))


def try_all(program, told, word=''):
    """Tries the files and the classes of the page whose names hold the word."""
    of_sources = {(file, head): features for file, text in sources().items() for head, features in classes(text).items()}
    of_page = classes_of_page()
    heads = [key for key in dict.fromkeys([*of_sources, *of_page]) if word in 'docs/LIBRARY.md %s: %s' % key]
    tests = [name for name in names() if word in 'lib/tests/%s.sa' % name]
    examples = [name for name in names() if word in 'lib/%s.sa' % name]
    told.part('library', len(tests) + len(examples) + len(heads))
    for name, wrong in zip(tests, report.side_by_side(functools.partial(test_difference, program), tests)):
        told.count('lib/tests/%s.sa' % name, wrong)
    for name, wrong in zip(examples, report.side_by_side(functools.partial(example_difference, program), examples)):
        told.count('lib/%s.sa' % name, wrong)
    for key in heads:
        told.count('docs/LIBRARY.md %s: %s' % key, page_difference(of_sources.get(key), of_page.get(key)))


if __name__ == '__main__':
    sys.exit(report.of_script(__doc__, try_all))
