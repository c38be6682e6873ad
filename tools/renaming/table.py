"""The table of names: its rows by their scopes, and what is asked of the names of several scopes."""
import re
import sys
from collections import defaultdict

from renaming.files import text_of

# The kinds of scopes whose names may be in comments and on pages.
IN_PROSE = ('type', 'def', 'fn', 'variant')


class Table:
    """The rows of a table, which is checked to have one for each name of a scope."""

    def __init__(self, path, warn):
        self.scopes = {}                                                # (kind, crate, ...) -> old -> new
        for scope, old, new in rows_of(path):
            row = self.scopes.setdefault(tuple(scope.split(' ')), {})
            if row.get(old, new) != new:
                warn('two rows for %s %s' % (scope, old))
            row[old] = new
        self.crates, self.tokens = self.scope('crate'), self.scope('token')
        self.old_crates = {new: old for old, new in self.crates.items()}
        self.token = re.compile(r'\b(%s)\b' % '|'.join(sorted(map(re.escape, self.tokens), key=len, reverse=True)))
        self.functions = defaultdict(lambda: defaultdict(list))         # crate -> old -> [(module, new)]
        self.named = defaultdict(lambda: defaultdict(set))              # crate -> old -> new names, whatever their kind
        self.fields = defaultdict(lambda: defaultdict(set))             # crate -> old -> new names of fields
        for (kind, *where), row in self.scopes.items():
            for old, new in row.items():
                if kind == 'fn':
                    self.functions[where[0]][old].append((where[1], new))
                if kind == 'field':
                    self.fields[where[0]][old].add(new)
                if kind in IN_PROSE:
                    self.named[where[0]][old].add(new)
        self.field_names = {old for fields in self.fields.values() for old in fields}
        self.words = {word for row in self.scopes.values() for old in row for word in (old, *old.split('/'))}

    def scope(self, *scope):
        """The rows of a scope, as new names by old ones."""
        return self.scopes.get(scope, {})

    def of_kind(self, kind, *where):
        """The scopes of a kind that begin so, each with its rows."""
        return [(scope, row) for scope, row in self.scopes.items() if scope[:len(where) + 1] == (kind, *where)]

    def new_token(self, text):
        """A text with the words replaced that are tokens of the table."""
        return self.token.sub(lambda found: self.tokens[found[0]], text) if self.tokens else text


def rows_of(path):
    """The rows of a file, each of three columns."""
    for number, line in enumerate(text_of(path).split('\n'), 1):
        if line.strip():
            row = line.split('\t')
            if len(row) != 3:
                sys.exit('%s:%d: not three columns' % (path, number))
            yield row
