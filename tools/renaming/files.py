"""A source or a file of definitions: its text in pieces, its imports, and the spans of it that have rules of their own."""
import re
from functools import cached_property
from pathlib import Path
from typing import NamedTuple

WORD = re.compile(r'[A-Za-z_][A-Za-z0-9_]*')
MODULE = re.compile(r'crates/[^/]+/src/(.+)\.rt$')
IMPORTS = {
    '.rt': re.compile(r'(?m)^[ \t]*(ghost[ \t]+)?(pub(?:\([^)]*\))?[ \t]+)?use[ \t]+([^;]+);'),
    '.antt': re.compile(r'(?m)^[ \t]*()(pub[ \t]+)?use[ \t]+(\S+?(?:\.\{[^}]*\})?(?:[ \t]+as[ \t]+\S+)?)[ \t]*$'),
}
ALIAS = re.compile(r'(.*?)\s+as\s+(\S+)$', re.S)
# What is not code in a source and in a file of definitions; a character of a source is code, but may be a quote.
NOT_CODE = {
    '.rt': re.compile(r'(?P<comment>//[^\n]*)|r(?P<hashes>#*)(?P<raw>".*?"(?P=hashes))|(?P<string>"(?:\\.|[^"\\])*")'
                      r"|'(?:\\[^\n][^']{0,8}|[^'\\])'", re.S),
    '.antt': re.compile(r'(?P<comment>(?<![^ \n\t])--[^\n]*)|(?P<string>"(?:\\.|[^"\\])*")', re.S),
}
BRACE = re.compile(r'[{}]')
USE = re.compile(r'(?m)^[ \t]*(?:ghost[ \t]+)?(?:pub(?:\([^)]*\))?[ \t]+)?use[ \t]+[^;]+;')
CLAUSE = re.compile(r'(?m)(?:^[ \t]*(?:ensures|requires|ghost)\b|\b(?:requires|ensures)\b(?=[^;\n]*\{))')
ENUM = re.compile(r'(?m)^[ \t]*(?:pub(?:\([^)]*\))?[ \t]+)?enum[ \t]+\w+[^{]*\{')
OWNER = re.compile(r'(?m)^\s*(?:impl(?:<[^{]*?>)?\s+(?:[^{;]*?\bfor\s+)?([A-Z]\w*)|(?:pub(?:\([^)]*\))?\s+)?enum\s+([A-Z]\w*))')


class Import(NamedTuple):
    """A path that a file imports, its alias or None, and whether the file exports it again."""
    path: list
    alias: str
    is_public: bool

    @property
    def name(self):
        """The name that is imported into the file."""
        return self.alias or self.path[-1]

    @property
    def is_definition(self):
        """Whether the path leads to what is defined, not to what is programmed."""
        return self.path[0] in ('Rattle', 'denote', 'Prim')

    @property
    def type_name(self):
        """The type whose generated definitions the path leads into, or None."""
        path = self.path
        if len(path) > 4 and path[0] == 'Rattle' and path[2] == 'specs' and path[3] in ('declared', 'contracts'):
            return next((segment for segment in path[4:] if segment[:1].isupper()), None)
        return None


class File:
    """A source or a file of definitions, with what can be read in it alone."""

    def __init__(self, path):
        self.path, self.text = path, text_of(path)
        self.suffix = Path(path).suffix
        self.is_source = self.suffix == '.rt'
        self.crate = crate_of(path)
        self.module = module_of(path)
        self.imports, self.imported_paths = list(self.read_imports()), {}
        for one in self.imports:
            self.imported_paths.setdefault(one.name, []).append(one.path)

    def read_imports(self):
        """The imports of the file, those in comments of whole lines left out."""
        text = self.text
        if self.is_source:
            text = '\n'.join('' if line.strip().startswith('//') else line for line in text.split('\n'))
        for found in IMPORTS[self.suffix].finditer(text):
            separator = '.' if found[1] or not self.is_source else '::'
            for path, alias in paths_in(found[3], separator):
                if path:
                    yield Import(path, alias, bool(found[2]))

    def pieces(self):
        """The text in pieces, each with its kind: `code`, `comment` or `string`."""
        start = 0
        for found in NOT_CODE[self.suffix].finditer(self.text):
            if found.lastgroup:
                yield 'code', self.text[start:found.start(found.lastgroup)]
                yield 'comment' if found.lastgroup == 'comment' else 'string', found[found.lastgroup]
                start = found.end()
        yield 'code', self.text[start:]

    @cached_property
    def code(self):
        """The text with its comments and strings blank, so that braces match."""
        return ''.join(text if kind == 'code' else re.sub(r'[^\n]', ' ', text) for kind, text in self.pieces())

    @cached_property
    def uses(self):
        """The spans of the imports of a source."""
        return [found.span() for found in USE.finditer(self.code)]

    @cached_property
    def clauses(self):
        """The spans of the clauses and the ghost items of a source."""
        found = []
        for start, end in (match.span() for match in CLAUSE.finditer(self.code)):
            brace = self.code.find('{', end)
            if re.match(r'[ \t]*ghost[ \t]+use', self.code[start:end + 8]):
                found.append((start, self.code.index(';', end)))
            elif brace >= 0:
                found.append((start, closing(self.code, brace) + 1))
        return found

    @cached_property
    def enums(self):
        """The spans of the bodies of the enums of a source."""
        return [(found.end(), closing(self.code, found.end() - 1)) for found in ENUM.finditer(self.code)]

    @cached_property
    def owners(self):
        """Where an implementation or an enum of a source begins, each with its type."""
        return [(found.start(), found[1] or found[2]) for found in OWNER.finditer(self.text)]

    def owner_at(self, at):
        """The type of the last implementation or enum that begins before a position, or None."""
        return next((name for start, name in reversed(self.owners) if start <= at), None)


def text_of(path):
    """The text of a file."""
    return Path(path).read_text('utf8')


def crate_of(path):
    """The crate that a file is in, or None."""
    parts = path.split('/')
    return parts[1] if parts[0] == 'crates' else None


def module_of(path):
    """The module that a source is, with those around it, or nothing for another file."""
    found = MODULE.match(path)
    return found[1] if found else ''


def is_in(spans, at):
    """Whether a position is in one of these spans."""
    return any(start <= at < end for start, end in spans)


def closing(text, at):
    """Where the brace at a position is closed, or the end of the text."""
    depth = 0
    for found in BRACE.finditer(text, at):
        depth += 1 if found[0] == '{' else -1
        if depth == 0:
            return found.start()
    return len(text)


def paths_in(tree, separator):
    """The paths of an import tree, each with its alias or None."""
    tree = tree.strip()
    brace = tree.find('{')
    if brace < 0:
        found = ALIAS.match(tree)
        path, alias = found.groups() if found else (tree, None)
        return [(segments_of(path, separator), alias)]
    head = segments_of(tree[:brace], separator)
    return [(head + (path if path != ['self'] else []), alias)
            for branch in branches(tree[brace:]) if branch.strip() for path, alias in paths_in(branch, separator)]


def segments_of(path, separator):
    """The segments of a path."""
    return [segment for segment in path.strip().split(separator) if segment]


def branches(tree):
    """The texts between the commas of an import tree in braces."""
    depth, start = 0, 1
    for at, sign in enumerate(tree):
        depth += {'{': 1, '}': -1}.get(sign, 0)
        if depth == 0 or sign == ',' and depth == 1:
            yield tree[start:at]
            start = at + 1
        if depth == 0:
            return
