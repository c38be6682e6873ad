#!/usr/bin/env python3
"""texts.py PROGRAM [--only WORD]
texts.py --write

Holds the texts that `sather explain` and `sather lib` print to the files that they come from:

- crates/sa_texts/src/errors has the sections of docs/ERRORS.md in parts, and crates/sa_texts/src/library the files of lib/; both are
  what this script writes with --write;
- `sather explain WORD` prints the section of each code, of each text of a line, and of both as they stand in a line;
- `sather lib` lists the files of lib/ with what each has, and `sather lib NAME` prints one, with `.sa` or without.

A page is a section as a terminal shows it: without the marks of headings and links, in lines of at most 79 columns, with programs
set in. --only takes the words and names that hold a word."""
import functools
import os
import re
import sys
import textwrap

import library
import report
from report import Left

CRATE = os.path.join(report.TOP, 'crates', 'sa_texts', 'src')
COLUMNS = 79
WIDTH, ROW_WIDTH, SHORT = 100, 60, 10
PARTS = 12
SECTION = re.compile(r'^### ([^\n]*)\n(.*?)(?=^##|\Z)', re.M | re.S)
CODE_OF = re.compile(r'(E\d\d): (.*)')
LINK = re.compile(r'\[([^]]*)\]\([^)]*\)')


def sections():
    """The sections of docs/ERRORS.md: the text of each by its heading."""
    return dict(SECTION.findall(report.text_of('docs', 'ERRORS.md')))


def wrapped(paragraph):
    """A paragraph in lines that fit a terminal, where what is marked as code is parted nowhere."""
    kept = re.sub(r'`[^`]*`', lambda code: code[0].replace(' ', '\0'), ' '.join(LINK.sub(r'\1', paragraph).split()))
    lines = textwrap.wrap(kept, COLUMNS, break_long_words=False, break_on_hyphens=False)
    return '\n'.join(lines).replace('\0', ' ')


def page(heading, text):
    """A section as a terminal shows it."""
    parts = [heading]
    for at, part in enumerate(re.split(r'^```.*\n', text, flags=re.M)):
        if at % 2:
            parts.append(textwrap.indent(part.rstrip('\n'), '    '))
        else:
            parts += [wrapped(paragraph) for paragraph in part.strip().split('\n\n') if paragraph.strip()]
    return '\n\n'.join(parts) + '\n'


def words_of(heading):
    """The three words that ask for the section with this heading: its code, its text, and both as they stand in a line."""
    if code := CODE_OF.fullmatch(heading):
        return code[1], code[2], heading
    return heading.removeprefix('fault: '), heading, heading


def explained():
    """The pages, each behind the words that ask for it. A section that has a word of an earlier one stands in the page of that one."""
    rows = []
    for heading, text in sections().items():
        words = words_of(heading)
        first = next((row for row in rows if set(row[:-1]) & set(words)), None)
        if first:
            first[-1] += '\n' + page(heading, text)
        else:
            rows.append([*words, page(heading, text)])
    return rows


def what_has(name):
    """What a file of lib/ has: the first sentence of its head, up to a second colon."""
    head = re.match(r'(?:--.*\n)+', report.text_of('lib', name + '.sa'))[0]
    return re.match(r'\S.*?: .*?(?=\.(?: |$)|: )', ' '.join(re.sub('^--', '', head, flags=re.M).split()))[0]


def listed():
    """The list of the files of lib/."""
    return ''.join(textwrap.fill('%-10s %s' % (name, what_has(name)), COLUMNS, subsequent_indent=11 * ' ', break_on_hyphens=False) + '\n'
                   for name in library.names())


def printed():
    """The files of lib/, each behind the words that ask for it."""
    return [[name, name + '.sa', name + '.sa', report.text_of('lib', name + '.sa')] for name in library.names()]


def constant(name, text, front=''):
    """The constant of a text, laid out as `rt fmt` does: a text whose first line is long begins in a line of its own."""
    marks = '#' * (1 + max([len(run) for run in re.findall(r'"(#*)', text)], default=0))
    head, literal = '%sconst %s: &str =' % (front, name), 'r%s"%s"%s;\n' % (marks, text, marks)
    is_long = len(head) + 1 + len(literal.split('\n', 1)[0]) > WIDTH
    return head + ('\n    ' if is_long else ' ') + literal


def name_of(word):
    """The name of the constant of a word's text."""
    return re.sub(r'\W+', '_', word).upper()


def row(parts):
    """A row of a table of several, laid out as `rt fmt` does."""
    if len(', '.join(parts)) <= ROW_WIDTH:
        return '    (%s),\n' % ', '.join(parts)
    return '    (\n%s    ),\n' % ''.join('        %s,\n' % part for part in parts)


def table_of(head, rows):
    """A table behind the head of its constant, laid out as `rt fmt` does."""
    if len(rows) != 1:
        return '%s[%s];\n' % (head, '\n' + ''.join(map(row, rows)) if rows else '')
    line = '%s[(%s)];\n' % (head, ', '.join(rows[0]))
    if len(line) <= WIDTH + 1:
        return line
    if max(map(len, rows[0])) <= SHORT:
        return '%s[(\n    %s,\n)];\n' % (head, ', '.join(rows[0]))
    return '%s[(\n%s)];\n' % (head, ''.join('    %s,\n' % part for part in rows[0]))


def parted(texts):
    """The texts in parts that are about equally long: what the prover can take at once is bounded."""
    whole, before = sum(len(text) for *_, text in texts), 0
    parts = [[] for _ in range(PARTS)]
    for *words, text in texts:
        parts[(before + len(text) // 2) * PARTS // whole].append([*words, text])
        before += len(text)
    return parts


def part_source(table, number, says, texts):
    """The source of a part: the table of its words, and a constant for each text, named by the first word that asks for it."""
    rows = [['"%s"' % word for word in words] + [name_of(words[0])] for *words, _ in texts]
    head = 'pub(crate) const %s_%d: [(&str, &str, &str, &str); %d] = ' % (table, number, len(texts))
    constants = [constant(name_of(words[0]), text) for *words, text in texts]
    return '//! %s\n\n/// The texts of this part, each behind the words that ask for it.\n%s' % (
        says % (number + 1), '\n'.join([table_of(head, rows), *constants]))


def part_sources(folder, table, says, texts):
    """The sources of all parts, by their names."""
    return {'%s/part_%d.rt' % (folder, number): part_source(table, number, says, part) for number, part in enumerate(parted(texts))}


def sources():
    """The sources of the crate that this script writes, by their names."""
    modules = ''.join('pub(crate) mod part_%d;\n' % number for number in sorted(range(PARTS), key=str))
    by = 'conformance/texts.py writes these files.'
    return {
        'errors.rt': '//! The sections of docs/ERRORS.md, in parts. %s\n\n%s' % (by, modules),
        'library.rt': '//! The files of lib/, in parts. %s\n\n%s\n/// The files, each with what it has.\n%s' % (
            by, modules, constant('LISTED', listed(), 'pub(crate) ')),
        **part_sources('errors', 'ERRORS', 'Part %d of the sections of docs/ERRORS.md.', explained()),
        **part_sources('library', 'FILES', 'Part %d of the files of lib/.', printed())}


def source_differs(name, text):
    """Where a source of the crate isn't what this script writes, or None."""
    return None if report.text_of(CRATE, name) == text else 'it isn\'t what conformance/texts.py --write gives'


def tried(program, command):
    """What differs in what a command prints, or None."""
    words, text = command
    return report.difference(Left(text.encode()), report.run([program, *words], report.TOP))


def commands():
    """The commands that print a text, each with its text."""
    for command, texts in (('explain', explained()), ('lib', printed())):
        yield from (((command, word), text) for *words, text in texts for word in dict.fromkeys(words))
    yield ('lib',), listed()


def try_all(program, told, word=''):
    """Compares the sources, and what the program prints, where the name or the words hold the word."""
    held = [(name, text) for name, text in sources().items() if word in 'texts: ' + name]
    chosen = [command for command in commands() if word in 'texts: ' + ' '.join(command[0])]
    told.part('the texts that explain and lib print', len(held) + len(chosen))
    for name, text in held:
        told.count('texts: ' + name, source_differs(name, text))
    for (words, _), wrong in zip(chosen, report.side_by_side(functools.partial(tried, program), chosen)):
        told.count('texts: ' + ' '.join(words), wrong)


def write():
    """Writes the sources of the crate."""
    for name, text in sources().items():
        os.makedirs(os.path.dirname(os.path.join(CRATE, name)), exist_ok=True)
        with open(os.path.join(CRATE, name), 'w', encoding='utf-8') as file:
            file.write(text)


if __name__ == '__main__':
    if sys.argv[1:] == ['--write']:
        write()
    else:
        sys.exit(report.of_script(__doc__, try_all))
