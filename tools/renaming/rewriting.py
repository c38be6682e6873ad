"""Rewriting code: each word of a source or a file of definitions becomes what it means there."""
import re
from functools import cached_property
from typing import NamedTuple

from renaming.files import WORD, closing, is_in
from renaming.moving import new_path
from renaming.prose import Prose
from renaming.resolving import RELATIVE
from renaming.scopes import scope_of

# A path of definitions, one of those in an attribute, or a word.
NAME = re.compile(r'Rattle(?:\.[^\s{}();,.]+)+|\bcrate::(?:specs|proofs)(?:::\w+)+|' + WORD.pattern)
# How much of the code before and after a word is looked at.
BEFORE, AFTER = 80, 40
OWNER = re.compile(r'([^\s(){}.,;]+)\.$')
QUALIFIER = re.compile(r'(\w+)::$')
LISTING = re.compile(r'crates/[^/]+/(specs|proofs)/Lib\.antt$')
MODULE_LINE = re.compile(r'((?:pub )?mod )(\S+)$')


class Word(NamedTuple):
    """A word of code, what is before and after it in its piece, and where it is in its file."""
    text: str
    before: str
    after: str
    at: int

    @property
    def is_type(self):
        """Whether it is written as types and variants are."""
        return is_type(self.text)

    @property
    def is_called(self):
        """Whether a call of it follows."""
        return self.after.startswith(('(', '::<'))

    @property
    def is_hyphenated(self):
        """Whether it is a part of a name with a hyphen."""
        return self.before.endswith('-') or self.after.startswith('-')

    @property
    def owner(self):
        """The name before the dot before it, or None."""
        found = OWNER.search(self.before)
        return found and found[1]


class Rewriter:
    """The rewriting of one file."""

    def __init__(self, resolver, file):
        self.resolver, self.file, self.scope = resolver, file, scope_of(resolver, file)
        self.repository, self.table, self.plain = resolver.repository, resolver.table, self.scope.plain
        self.prose = Prose(resolver, file.crate, self.plain)
        self.used = set()                   # (old, new)

    def rewritten(self):
        """The text of the file, with a warning for each name that becomes one that is there already."""
        if found := LISTING.match(self.file.path):
            return '\n'.join(self.module_line(found[1], line) for line in self.file.text.split('\n'))
        text, at, there = [], 0, set()
        for kind, piece in self.file.pieces():
            if kind == 'code':
                text.append(self.code(piece, at))
                there.update(WORD.findall(piece))
            else:
                text.append(self.prose.rewritten(piece) if kind == 'comment' else piece)
            at += len(piece)
        for old, new in self.used.union((word, self.table.tokens[word]) for word in there & self.table.tokens.keys()):
            if new in there:
                self.resolver.warn('%s: %s becomes %s, which stands there' % (self.file.path, old, new))
        return ''.join(text)

    def module_line(self, folder, line):
        """A line of the file that lists the files of specs/ or proofs/."""
        found = MODULE_LINE.match(line)
        return found[1] + self.resolver.new_file(self.file.crate, folder, found[2]) if found else self.code(line, 0)

    def code(self, piece, at):
        """A piece of code that is at a position of the file."""
        def new_name(found):
            start, end = found.span()
            text = found[0]
            if text.startswith('Rattle.'):
                return self.resolver.new_path(text)
            if text.startswith('crate::'):
                return '::'.join(['crate', *self.resolver.in_file(self.file.crate, *text.split('::')[1:])])
            word = Word(text, piece[max(0, start - BEFORE):start], piece[end:end + AFTER], at + start)
            return self.new_word(word) if text in self.table.words else text

        return self.table.new_token(NAME.sub(new_name, piece))

    def new_word(self, word):
        """What a word of the table becomes."""
        if word.text in self.table.crates:
            return self.table.crates[word.text]
        if not self.file.is_source:
            new = self.in_definitions(word)
        elif is_in(self.file.clauses, word.at):
            new = self.in_clause(word)
        else:
            new = self.in_source(word)
        if new is None:
            return word.text
        if new != word.text:
            self.used.add((word.text, new))
        return new

    # ---- definitions and clauses

    def in_definitions(self, word):
        """What a word of definitions becomes, or None where it stays."""
        if word.is_hyphenated or word.before.endswith('+'):
            return self.part(word)
        if word.before.endswith('.'):
            return self.selected(word)
        return self.plain.get(word.text)

    def part(self, word):
        """What a part of a generated name becomes, or None for one of a name that is written by hand."""
        start, end = re.search(r'[^\s(){}.,;]*$', word.before), re.match(r'[^\s(){}.,;]*', word.after)
        if start[0] + word.text + end[0] in self.repository.hyphenated:
            return None
        return self.scope.parts.get(word.text) or (self.plain.get(word.text) if word.is_type else None)

    def selected(self, word):
        """What a word after a dot becomes, by what is before it: an alias, a type, the context `c` of answers or laws `g`, or a value."""
        owner = word.owner or ''
        if owner in self.scope.aliases:
            return self.resolver.last_of(self.file, self.scope.aliases[owner] + [word.text])
        declared = self.scope.type_named(re.sub(r'-F$', '', owner)) if word.is_type else None
        if declared:
            return self.resolver.new_variant(*declared, word.text)
        if owner in ('c', 'g') or re.search(r'\bc(\.[^\s(){},;]+)*\.$', word.before):
            return self.scope.parts.get(word.text)
        return self.scope.field(word.text)

    def in_clause(self, word):
        """What a word of a clause or a ghost item becomes, or None where it stays."""
        if word.before.endswith('.'):
            if word.owner in self.scope.aliases:
                return self.resolver.last_of(self.file, self.scope.aliases[word.owner] + [word.text])
            if word.is_type and is_type(word.owner or ''):
                return self.scope.new_variant(word.owner, word.text, word.at)
            return self.scope.field(word.text)
        if word.is_hyphenated:
            return None
        return self.scope.in_clauses.get(word.text) or (self.plain.get(word.text) if word.is_type else None)

    # ---- code

    def in_source(self, word):
        """What a word of a source becomes, or None where it stays: the first rule decides that is for its place."""
        text, is_in_use = word.text, is_in(self.file.uses, word.at)
        alias = re.match(r'\s+as\s+(\w+)', word.after) if is_in_use else None
        if alias and self.scope.aliases.get(alias[1], [None])[-1] == text:
            return self.resolver.last_of(self.file, self.scope.aliases[alias[1]])
        if qualifier := QUALIFIER.search(word.before):
            if is_type(qualifier[1]):
                return self.scope.new_variant(qualifier[1], text, word.at) if word.is_type else self.scope.method(text)
            return self.in_module(qualifier[1], word, is_in_use)
        is_module = re.search(r'\bmod\s+$', word.before) or word.after.startswith('::') and text in self.own_modules()
        if is_module and not word.is_type:
            return self.new_module(self.file.crate, text)
        if re.search(r'\.\s*$', word.before) and not word.before.endswith('..'):
            return self.scope.method(text) if word.is_called else self.field(word)
        if new := self.field_of_literal(word):
            return new
        if re.search(r'\bfn\s+$', word.before):
            return self.table.scope('fn', self.file.crate, self.file.module).get(text)
        if word.is_type and self.is_declared_variant(word):
            return self.table.scope('variant', self.file.crate, self.file.owner_at(word.at)).get(text)
        is_named = word.is_type or is_in_use or word.after.lstrip().startswith('(') or self.is_passed(word)
        return self.plain.get(text) if is_named else None

    def in_module(self, qualifier, word, is_in_use):
        """What a word after a crate or module becomes, or None where it stays."""
        text, path = word.text, self.file.imported_paths.get(qualifier, [None])[0]
        if path and qualifier not in self.repository.crates and self.resolver.crate_of(self.file, path):
            return self.resolver.last_of(self.file, path + [text])
        is_outer = word.after.startswith('::')
        if is_in_use and text in self.plain and (word.is_type or not is_outer):
            return self.plain[text]
        is_own = qualifier in self.own_modules()
        crate = qualifier if qualifier in self.repository.crates else self.file.crate if qualifier in RELATIVE or is_own else None
        if crate is None:
            return None
        if word.is_type:
            return self.resolver.new_type(crate, text)
        is_function = self.repository.functions[crate].get(text) and qualifier not in RELATIVE
        if is_outer or is_in_use and not is_function:
            if new := self.new_module(crate, text):
                return new
        return self.resolver.new_function(crate, text, qualifier if is_own else None)

    def own_modules(self):
        """The last names of the modules of the file's crate."""
        return {module.split('/')[-1] for module in self.repository.modules[self.file.crate]}

    def new_module(self, crate, name):
        """The last name of a module of a crate, or None where it has no module of this name."""
        modules = self.repository.modules_named(crate, name)
        return self.resolver.new_module(crate, modules[0]).split('/')[-1] if modules else None

    def field(self, word):
        """What a field after a dot becomes: of the type around it after `self`, else of any type."""
        if re.search(r'\bself\.$', word.before):
            owner = self.file.owner_at(word.at)
            if word.text in self.repository.fields[self.file.crate].get(owner, ()):
                return self.table.scope('field', self.file.crate, owner).get(word.text)
        return self.scope.field(word.text)

    def field_of_literal(self, word):
        """What a field becomes where a value or a pattern of its struct names it, or None; the short form `field` is made long."""
        if word.text not in self.table.field_names or word.is_type:
            return None
        new = self.literal_field(word)
        if new and re.match(r'\s*:(?!:)', word.after):
            return new
        if new and re.match(r'\s*[,}]', word.after) and re.search(r'[{,]\s*$', word.before):
            return '%s: %s' % (new, self.plain.get(word.text, word.text))
        return None

    def literal_field(self, word):
        """The new name of the field of the value or pattern in whose braces a word is, or None."""
        for start, end, fields in self.literals:
            inside = self.file.text[start:word.at]
            if start <= word.at < end and word.text in fields and inside.count('{') == inside.count('}'):
                return fields[word.text]
        return None

    @cached_property
    def literals(self):
        """The spans of the values and patterns of structs of whose fields the table has some, each with these."""
        literal = r'(?<!impl )(?<!for )(?<!> )\b%s(?:<[^<>{}]*>)?\s*\{'
        return [(found.end(), closing(self.file.code, found.end() - 1), fields)
                for crate in self.repository.visible(self.file.crate)
                for (*_, struct), fields in self.table.of_kind('field', crate)
                for found in re.finditer(literal % struct, self.file.code)]

    def is_declared_variant(self, word):
        """Whether an enum declares the word as a variant of it."""
        return (is_in(self.file.enums, word.at) and re.search(r'(?:\n[ \t]*|[{,]\s*)$', word.before)
                and re.match(r'\s*(?:[,({=}]|$|\n)', word.after))

    def is_passed(self, word):
        """Whether an imported function is named without a call, to be passed to another, and no variable has its name."""
        is_argument = re.search(r'[(,]\s*$', word.before) and re.match(r'\s*[,)]', word.after)
        if not is_argument or word.text not in self.scope.imported:
            return False
        variable = r'\b(?:let|mut)\s+%s\b|\b%s\s*:(?!:)|[(,|]\s*%s\s*[|,)][^;]*?=' % (word.text, word.text, word.text)
        return not re.search(variable, self.file.text)


def is_type(name):
    """Whether a name is written as those of types and variants are."""
    return name[:1].isupper()


def edits_rewritten(resolver, crate, text):
    """The text of a file of edits that the verifier must refuse; what they replace in a source is named as in this source."""
    lines, rewriter = [], None
    for line in text.split('\n'):
        if found := re.match(r'(file:\s*)(\S+)$', line):
            path = 'crates/%s/%s' % (crate, found[2])
            file = resolver.repository.files.get(path)
            rewriter = Rewriter(resolver, file) if file else None
            line = found[1] + new_path(resolver, path).split('/', 2)[2]
        elif rewriter and line.startswith(('old:', 'new:')):
            line = line[:4] + rewriter.code(line[4:], position(rewriter.file.text, line[4:].strip()))
        lines.append(line)
    return '\n'.join(lines)


def position(text, line):
    """Where a line is in a text, or its middle for one that isn't there."""
    found = text.find(line)
    return found if found >= 0 else len(text) // 2
