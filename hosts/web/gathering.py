"""What the page has from other places of the repository: the examples of examples/, the lessons of docs/ITERS.md, what docs/ERRORS.md
says of refusals and faults, and the classes of the library, as `PROGRAM lib` prints them."""
import json
import os
import re
import subprocess
import tempfile

import tracing

FOLDER = os.path.dirname(os.path.realpath(__file__))
TOP = os.path.join(FOLDER, '..', '..')
SECONDS = 60                                                    # that the program may take for one of them
MOST = tracing.Most(lines=500, output=1 << 20, seconds=SECONDS)      # of the longest trace that is kept as a whole
BEGINNING = 200                                                 # lines that are kept of a longer one
ROW = re.compile(r'^\| \[(\w+)\]\(\w+\.sa\) \| (.*?) \| (.*?) \|$', re.M)
HEADING = re.compile(r'^#{2,3} (.*)$', re.M)
FENCE = re.compile(r'^```.*\n', re.M)
LINK = re.compile(r'\[([^]]*)\]\(([^)]*)\)')
PICTURE = re.compile(r'^!\[[^]]*\]\([^)]*\)$')
OF_LIBRARY = re.compile(r'^(\w+) +(.*(?:\n +.*)*)$', re.M)


def text_of(*path):
    """The text of a file of the repository, or an empty one where there is none."""
    path = os.path.join(TOP, *path)
    if not os.path.isfile(path):
        return ''
    with open(path, encoding='utf-8') as file:
        return file.read()


# Runs that are recorded.

def told_of(program, words, source):
    """The lines on err that a command of the program leaves for a source, which is the file f.sa."""
    with tempfile.TemporaryDirectory() as folder:
        with open(os.path.join(folder, 'f.sa'), 'w', encoding='utf-8') as file:
            file.write(source)
        left = subprocess.run([program, *words, 'f.sa'], cwd=folder, stdin=subprocess.DEVNULL, stdout=subprocess.DEVNULL,
                              stderr=subprocess.PIPE, timeout=SECONDS, check=False)
    return left.stderr.decode()


def recorded(program, source, given='', most=MOST):
    """A run of a source: its output and its trace, of each line of the trace how many bytes of the output stand before it, whether
    this is but the beginning, and what is told of a refusal or a fault."""
    left = tracing.traced([program, 'run', '--trace'], 'f.sa', source.encode(), given.encode(), most)
    lines = left.lines.decode().splitlines(keepends=True)
    if left.status is None:
        lines = lines[:BEGINNING]
    events = [line for line in lines if not line.startswith('f.sa:') and not line.startswith('prelude:')]
    told = ''
    if left.status == 120:
        told = told_of(program, ['check', '--all', '--explain'], source)
    elif left.status is not None and len(events) < len(lines):
        told = told_of(program, ['run', '--explain'], source)
    return {
        'source': source, 'input': given, 'output': left.output.decode(errors='replace'), 'trace': ''.join(events),
        'shown': left.shown[:len(events)], 'isCut': left.status is None, 'told': told,
    }


# Examples.

def recorded_example(program, name):
    """The recorded run of an example, whose output is known."""
    run = recorded(program, text_of('examples', name + '.sa'), text_of('examples', name + '.in'))
    return {**run, 'output': text_of('examples', name + '.out')}


def examples(program):
    """The examples in the order of the table of examples/README.md, with what it says of them."""
    for name, does, shows in ROW.findall(text_of('examples', 'README.md')):
        yield {'name': name, 'does': does, 'shows': shows.replace('`', ''), **recorded_example(program, name)}


# Sections of pages.

def anchor_of(heading):
    """The anchor of a heading."""
    return re.sub(r'[^a-z0-9_ -]', '', heading.lower()).replace(' ', '-')


def sections(page):
    """The headings of a page of docs/, each with the text behind it."""
    pieces = HEADING.split(text_of('docs', page))
    return list(zip(pieces[1::2], pieces[2::2]))


def lesson_name(heading):
    """How the page addresses a section of ITERS.md."""
    return 'lesson-' + anchor_of(heading)


def error_name(heading):
    """How the page addresses a section of ERRORS.md."""
    code = re.match(r'(E\d\d):', heading)
    return 'about-' + (code[1] if code else anchor_of(heading))


def addresses():
    """The addresses in the page of what links of docs/ lead to."""
    named = [('ITERS.md', 'ITERS.md#' + anchor_of(heading), lesson_name(heading)) for heading, _ in sections('ITERS.md')]
    named += [('ERRORS.md', 'ERRORS.md#' + anchor_of(heading), error_name(heading)) for heading, _ in sections('ERRORS.md')]
    named += [('', '../examples/%s.sa' % name, name) for name, _, _ in ROW.findall(text_of('examples', 'README.md'))]
    return {target: address for _, target, address in named}


def linked(text, page, known):
    """A text whose links lead to addresses of the page; those that lead to nothing there are no links."""
    def link(match):
        target = page + match[2] if match[2].startswith('#') else match[2]
        return '[%s](#%s)' % (match[1], known[target]) if target in known else match[1]
    return LINK.sub(link, text)


def paragraphs(text, page, known):
    """The paragraphs of a text, without pictures and what leads up to them."""
    found = [' '.join(piece.split('\n')) for piece in re.split(r'\n\n+', text.strip('\n')) if piece.strip()]
    for place, piece in enumerate(found):
        is_before_picture = place + 1 < len(found) and PICTURE.match(found[place + 1]) and piece.endswith(':')
        if not PICTURE.match(piece) and not is_before_picture:
            yield {'text': linked(piece, page, known)}


def parts_of(text, page, known, run_of):
    """A section as its paragraphs, its programs, and what else stands between them in a block."""
    for place, piece in enumerate(FENCE.split(text)):
        if place % 2 == 0:
            yield from paragraphs(piece, page, known)
        elif 'class MAIN is' in piece:
            yield {'program': run_of(piece)}
        else:
            yield {'block': piece.rstrip('\n')}


def lessons(program, wanted=lambda heading: True):
    """The lessons: the sections of docs/ITERS.md, whose programs have their recorded runs."""
    known = addresses()
    for heading, text in sections('ITERS.md'):
        if wanted(heading):
            parts = list(parts_of(text, 'ITERS.md', known, lambda source: recorded(program, source)))
            yield {'name': lesson_name(heading), 'title': heading.replace('`', ''), 'parts': parts}


def errors():
    """What docs/ERRORS.md says of each refusal and each fault."""
    known = addresses()
    for heading, text in sections('ERRORS.md'):
        if re.match(r'E\d\d: |fault: ', heading):
            parts = list(parts_of(text, 'ERRORS.md', known, lambda source: {'source': source}))
            yield {'name': error_name(heading), 'title': heading, 'parts': parts}


# The library.

def library(program):
    """The files of the library, as the program lists and prints them."""
    def printed(*words):
        return subprocess.run([program, 'lib', *words], stdout=subprocess.PIPE, timeout=SECONDS, check=True).stdout.decode()
    for name, does in OF_LIBRARY.findall(printed()):
        yield {'name': name, 'does': ' '.join(does.split()), 'text': printed(name)}


# Scripts of the page.

def script(head, name, rows):
    """The text of a script that has rows under a name."""
    written = ',\n'.join(json.dumps(row, ensure_ascii=False) for row in rows)
    return "// %s\n'use strict';\n\nconst %s = [\n%s,\n];\n" % (head, name, written)


def scripts(program):
    """The scripts that `gather` writes, each with its name."""
    yield 'examples.js', script('The examples, as hosts/web/gather writes them from examples/.', 'EXAMPLES', examples(program))
    yield 'lessons.js', script('The lessons, as hosts/web/gather writes them from docs/ITERS.md.', 'LESSONS', lessons(program))
    yield 'errors.js', script('What refusals and faults mean, as hosts/web/gather writes it from docs/ERRORS.md.', 'ERRORS', errors())
    yield 'library.js', script('The library, as hosts/web/gather writes it from what `sather lib` prints.', 'LIBRARY', library(program))


def rows_of(name):
    """The rows of a script, as it stands."""
    with open(os.path.join(FOLDER, name), encoding='utf-8') as file:
        lines = file.read().splitlines()
    return [json.loads(line[:-1]) for line in lines if line.startswith('{')]
