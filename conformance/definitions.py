#!/usr/bin/env python3
"""definitions.py
definitions.py --write

Holds two parts of docs/PROOFS.md to the sources:

- "What a reader has to believe" has a row for each call of `CALLS`: the files of specs/ with the definitions on which its clauses
  rest, and how many definitions and lines these are. A clause rests on the definitions that it cites, and on what these cite.
  --write writes the rows.
- "Definitions that no clause cites yet" names each file of specs/ with a definition on which no clause of any call rests.

A definition cites what its words name, by the imports of its file. A word that is a variable there cites nothing."""
import functools
import os
import re
import sys

import report

PAGE = ('docs', 'PROOFS.md')
CALLS = [
    ('sa_driver', 'top', 'sather'),
    ('sa_cli', 'read', 'command_of'),
    ('sa_gen', 'lines', 'generate'),
    ('sa_read', 'source_files', 'read_program'),
    ('sa_read', 'front', 'parse_program'),
    ('sa_lexer', 'lexer', 'lex'),
    ('sa_parser_expr', 'expression', 'read_expr'),
    ('sa_subtypes', 'making', 'make'),
    ('sa_overload', 'choice', 'choose'),
    ('sa_include', 'flattening', 'flatten'),
    ('sa_contracts', 'weaving', 'weave'),
    ('sa_typing', 'verifier', 'is_well_typed'),
    ('sa_type_safety', 'law', 'never_stuck'),
    ('sa_structure', 'structured_body', 'structure_of'),
    ('sa_emit', 'program', 'emit'),
    ('sa_trace_run', 'traced_run', 'run_traced'),
    ('wa_decode', 'module', 'decode'),
    ('wa_encode', 'module', 'encode'),
    ('wa_text', 'writer/module', 'write'),
    ('wa_text', 'reader/module', 'read'),
    ('wa_valid', 'valid', 'validate'),
    ('wa_type_safety', 'law', 'never_stuck'),
    ('wa_exec', 'machine', 'step_until'),
    ('wa_run', 'module_run', 'run_bytes'),
]
BELIEVED = '| call | files of `specs/` | definitions | lines |\n|---|---|---|---|\n'
UNCITED = re.compile(r'\n## Definitions that no clause cites yet\n(.*?)\n## ', re.S)
PLACES = re.compile(r'`(\w+)`: ((?:`\w+`(?:, )?)+)')
WORD = re.compile(r'[^\s(){}\[\],;«»]+')
USE = re.compile(r'(?:ghost |pub )*use\s+Rattle\.([^\s;{]+?)(?:\.\{([^}]*)\})?(?:\s+as\s+(\w+))?\s*(?:;|$)', re.M)
LISTED = re.compile(r'\{[^}]*\}')
MARKS = {'abbrev', 'data', 'module', 'mutual', 'private', 'pub', 'record', 'unfoldable'}
VARIABLES = re.compile(r'λ ([^.]*)\. |\(((?:\w+ )+): |\{((?:\w+ )+): ')


class Imports:
    """What the words of a file name: definitions by their own name or an operator's, and modules."""

    def __init__(self, text):
        self.names, self.modules = {}, {}
        for module, listed, alias in USE.findall(LISTED.sub(lambda found: ' '.join(found[0].split()), text)):
            for item in filter(None, map(str.strip, listed.split(','))):
                name, _, other = item.partition(' as ')
                self.names[(other or name).strip().strip('◌')] = module, name.strip().strip('◌')
            if not listed:
                self.modules[alias or module.rpartition('.')[2]] = module

    def named(self, word):
        """The module and the name of what a word of the file names, or None."""
        head, _, rest = word.partition('.')
        if word in self.names:
            return self.names[word]
        return (self.modules[head], rest.partition('.')[0]) if rest and head in self.modules else None


class Definition:
    """A definition of a file: what its equations say. In each of them some words are variables."""

    def __init__(self, name, is_data):
        self.name, self.is_data, self.equations = name, is_data, []

    def add(self, line):
        """Takes a line of it. Between the name and `=`, and behind a `λ`, stand variables."""
        left, _, right = line.strip().partition(' = ')
        is_equation = right and left.split()[0].strip('«»') == self.name
        if is_equation or not self.equations:
            self.equations.append((set(), set()))
        words, variables = self.equations[-1]
        words |= set(WORD.findall(line))
        variables |= {word for word in WORD.findall(left if is_equation else '')[1:] if word[0].islower()}
        variables |= set(' '.join(map(' '.join, VARIABLES.findall(line))).split())

    @property
    def words(self):
        """The words that aren't variables where they stand."""
        return set().union(*(words - variables for words, variables in self.equations))


class Specs:
    """A file of specs/: its definitions by name, and which of them each constructor belongs to."""

    def __init__(self, path, text):
        self.path, self.lines, self.imports = path, text.count('\n'), Imports(text)
        self.definitions, self.owners, self.around, self.last = {}, {}, [], None
        for line in re.sub(r'(^|\s)--.*', '', text, flags=re.M).split('\n'):
            if line.strip() and ' use ' not in ' ' + line[:8]:
                self.add(line)

    def add(self, line):
        depth = len(line) - len(line.lstrip())
        while self.around and depth <= self.around[-1][0]:
            self.around.pop()
        words = line.split()
        marks = next((at for at, word in enumerate(words) if word not in MARKS), len(words))
        if words[-1] == 'mutual' or words[:marks][-1:] == ['module'] and words[-1] == 'where':
            self.around.append((depth, line))
            self.last = None
        elif depth == (self.around[-1][0] + 2 if self.around else 0) and marks < len(words) and (marks or words[1:2] == [':']):
            self.begin(words[marks].strip('◌«»'), words[:marks], line)
        elif self.last:
            self.go_on(line)

    def begin(self, name, marks, line):
        self.last = name
        found = self.definitions.setdefault(name, Definition(name, 'data' in marks))
        for text in [*(text for _, text in self.around), line]:
            found.add(text)

    def go_on(self, line):
        found = self.definitions[self.last]
        found.add(line)
        if found.is_data and (constructor := re.match(r'\s+(?:pub )?([A-Z]\w*) :', line)):
            self.owners[constructor[1]] = self.last

    def own(self, word):
        """The name of the definition of this file that a word names, or None."""
        return word if word in self.definitions else self.owners.get(word)


@functools.cache
def files(part, suffix):
    """The files of a part of each crate, `specs` or `src`, with their texts, by the crate and the path without its suffix."""
    found = {}
    crates = os.path.join(report.TOP, 'crates')
    for crate in sorted(os.listdir(crates)):
        for folder, _, names in sorted(os.walk(os.path.join(crates, crate, part))):
            for name in sorted(name for name in names if name.endswith(suffix)):
                path = os.path.relpath(os.path.join(folder, name), os.path.join(crates, crate, part))
                found[crate, path.removesuffix(suffix)] = report.text_of(folder, name)
    return found


@functools.cache
def specs():
    """The files of specs/ of all crates, by their modules."""
    return {'%s.specs.%s' % (crate, path.replace('/', '.')): Specs((crate, path), text)
            for (crate, path), text in files('specs', '.antt').items() if path != 'Lib'}


def found(module, name):
    """The definition of a module with this name, as its module and its name, or None where specs/ has none."""
    if module in specs():
        own = specs()[module].own(name)
        return (module, own) if own else found(*specs()[module].imports.names.get(name, ('', '')))
    above, _, last = module.rpartition('.')
    return (above, last) if above in specs() and specs()[above].own(last) else None


def cited(imports, words):
    """The definitions that these words cite."""
    named = filter(None, (imports.named(word) for word in words))
    return {definition for definition in (found(*it) for it in named) if definition}


@functools.cache
def cited_by(module, name):
    """The definitions that a definition cites."""
    file = specs()[module]
    definition = file.definitions[name]
    own = {(module, file.own(word)) for word in definition.words if file.own(word)}
    return own | cited(file.imports, definition.words)


def rested_on(begin):
    """These definitions, what they cite, what that cites, and so on."""
    seen, left = set(), list(begin)
    while left:
        definition = left.pop()
        if definition not in seen:
            seen.add(definition)
            left += cited_by(*definition)
    return seen


def clauses(text, name):
    """The clauses of a function of a source: what stands between the line of its `fn` and that of its body."""
    head = re.search(r'^( *)(?:pub(?:\(crate\))? )?fn %s\b.*?^\1\{' % name, text, re.M | re.S)[0]
    return re.sub('//.*', '', head)


def words_of(text):
    """The words of a source's text that may name definitions."""
    return set(WORD.findall(text))


def believed(call):
    """The definitions on which the clauses of a call rest."""
    crate, path, name = call
    text = files('src', '.rt')[crate, path]
    return rested_on(cited(Imports(text), words_of(clauses(text, name))))


def row(call):
    """The row of a call in the table of what a reader has to believe: the files of its own crate come first."""
    definitions = believed(call)
    modules = sorted({module for module, _ in definitions}, key=lambda module: (module.split('.')[0] != call[0], module))
    crates = dict.fromkeys(module.split('.')[0] for module in modules)
    listed = ('`%s`: %s' % (crate, ', '.join('`%s`' % specs()[module].path[1] for module in modules if module.split('.')[0] == crate))
              for crate in crates)
    return '| `%s`: `%s` | %s | %d | %d |' % (
        call[0], call[2], '; '.join(listed), len(definitions), sum(specs()[module].lines for module in modules))


def uncited():
    """The files of specs/ with a definition on which no clause rests, and the laws of a crate count as clauses."""
    sources = [(Imports(text), words_of(text)) for text in files('src', '.rt').values()]
    held = rested_on(set().union(*(cited(imports, words) for imports, words in sources)))
    return {file.path for module, file in specs().items() if any((module, name) not in held for name in file.definitions)}


def told_uncited(page):
    """The files that the page says no clause cites."""
    rows = [line.split('|') for line in UNCITED.search(page)[1].split('\n') if line.startswith('|')]
    return {(crate, name) for row in rows for crate, names in PLACES.findall(row[2]) for name in re.findall(r'`(\w+)`', names)}


def try_all(told):
    """Compares both parts of the page with the sources."""
    page = report.text_of(*PAGE)
    rows = page.partition(BELIEVED)[2].partition('\n\n')[0].split('\n')
    told.part('definitions that clauses rest on', len(CALLS) + 1)
    for call in CALLS:
        told.count('%s: %s' % (call[0], call[2]),
                   None if row(call) in rows else 'docs/PROOFS.md has another row than conformance/definitions.py --write gives')
    says, holds = told_uncited(page), uncited()
    told.count('definitions that no clause cites', None if says == holds else 'docs/PROOFS.md lacks %s and has %s too many' % (
        sorted(holds - says), sorted(says - holds)))


def write():
    """Writes the rows of the first part."""
    front, head, rest = report.text_of(*PAGE).partition(BELIEVED)
    rows = ''.join(row(call) + '\n' for call in CALLS)
    with open(os.path.join(report.TOP, *PAGE), 'w', encoding='utf-8') as file:
        file.write(front + head + rows + '\n' + rest.partition('\n\n')[2])


def main():
    if sys.argv[1:] == ['--write']:
        return write()
    told = report.Report()
    try_all(told)
    return told.close()


if __name__ == '__main__':
    sys.exit(main())
