"""Rewriting comments and pages: crates and files everywhere, other names in backticks where it is clear which is meant."""
import functools
import re
from collections import Counter, defaultdict

from renaming.files import WORD
from renaming.table import IN_PROSE

OF_CRATE = re.compile(r'`(\w+)`: ((?:`\w+`(?:, )?)+)')
FILE = re.compile(r'(?:\b(\w+)/)?\b(specs|proofs|src)/(\w+(?:/\w+)*)(\.antt|\.rt)?')
QUOTED = re.compile(r'`([^`\n]*)`')
# What follows a name that is new already, as those of files are: it isn't replaced once more.
NEW = '\1'


class Prose:
    """The rewriting of the prose of a crate, or of none, in a file with these new names."""

    def __init__(self, resolver, crate=None, plain=None):
        self.repository, self.table, self.resolver = resolver.repository, resolver.table, resolver
        self.crate, self.plain = crate, plain or {}

    def rewritten(self, text):
        """The text with its names replaced."""
        text = self.crates_in(OF_CRATE.sub(self.names_of_crate, text))
        return QUOTED.sub(self.quoted, FILE.sub(self.file, text)).replace(NEW, '')

    def crates_in(self, text):
        """The text with the names of crates replaced."""
        return WORD.sub(lambda found: self.table.crates.get(found[0], found[0]), text)

    def names_of_crate(self, found):
        """A crate, and names of it in a list."""
        named = self.table.named[found[1]] if found[1] in self.repository.crates else {}

        def new_name(word):
            news = list(named.get(word[0], ()))
            return news[0] if len(news) == 1 else self.table.tokens.get(word[0], word[0])

        return '`%s`: %s' % (found[1], WORD.sub(new_name, found[2]))

    def file(self, found):
        """The name of a file, of the crate that is named before it by its new name, or else of the crate of the prose."""
        owner, folder, name, suffix = found.groups()
        crate = self.table.old_crates.get(owner, owner) if owner else self.crate
        if crate not in self.repository.crates:
            return found[0]
        if folder != 'src':
            name = self.resolver.new_file(crate, folder, name)
        elif name in self.repository.modules[crate]:
            name = self.resolver.new_module(crate, name)
        return '%s%s/%s%s%s' % (owner + '/' if owner else '', folder, name.replace('/', NEW + '/'), NEW, suffix or '')

    def quoted(self, found):
        """What is in backticks."""
        def new_name(word):
            is_new = found[1].startswith(NEW, word.end())
            return word[0] if is_new else self.table.tokens.get(word[0]) or self.new_name(word[0])

        return '`%s`' % WORD.sub(new_name, found[1])

    def new_name(self, word):
        """What a name becomes: as in the file around the prose, else as in its crate, else as everywhere."""
        if word in self.plain:
            return self.plain[word]
        if not word[:1].isupper() and '_' not in word:
            return word
        own = list(self.table.named[self.crate].get(word, ())) if self.crate else ()
        return own[0] if len(own) == 1 else unique_names(self.resolver).get(word, word)


@functools.cache
def unique_names(resolver):
    """The new names of what the table gives one, and nothing else has the old name."""
    news, rows = defaultdict(set), Counter()
    for kind in IN_PROSE:
        for _, names in resolver.table.of_kind(kind):
            rows.update(names.keys())
            for old, new in names.items():
                news[old].add(new)
    return {old: new for old, (new, *others) in news.items() if not others and resolver.repository.declarations[old] <= rows[old]}
