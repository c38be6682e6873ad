#!/usr/bin/env python3
"""clauses.py [--names [CRATE..]]
clauses.py --write

Counts the exported functions of each library crate, and those of them without any `ensures`, and compares docs/CONTRACTS.md, "Functions
without a clause", with the counts. A count there is the most that a crate may have: a crate with more of these functions fails, and so
does a row that isn't the count.

Exported is each `pub fn` that src/lib.rt names in a `pub use`, that is in a module which is `pub mod` there, or that is a method of a
type which is exported in one of these ways. Programs and the crates that try others (`test_*`) aren't counted. A function that has a
`requires` alone says nothing of what it does, and counts as one without a clause.

--names prints the functions without a clause, with a `*` where there is a `requires`. --write writes the rows, but none that has more
functions without a clause than before: such a row is changed by hand."""
import os
import re
import sys

import definitions
import report

PAGE = ('docs', 'CONTRACTS.md')
TABLE = '| crate | without a clause | exported functions |\n|---|---|---|\n'
ROW = re.compile(r'^\| `(\w+)` \| (\d+) \| (\d+) \|$')
ALL = '| all | %d | %d |\n'
NO_LIBRARY = re.compile(r'test_\w+')
COMMENT = re.compile(r'//.*')
PUBLIC_MODULE = re.compile(r'^pub mod (\w+);', re.M)
REEXPORT = re.compile(r'^pub use (\w+)::(?:\{([^}]*)\}|([\w:]+));', re.M)
HEAD = re.compile(r'^( *)pub (?:const |unsafe )*fn (\w+)')
IMPL = re.compile(r'^impl\b(?:<(?:[^<>]|<[^<>]*>)*>)? *(\w+)(?!.* for )')
TYPE = re.compile(r'^pub (?:struct|enum|trait|union|type) (\w+)')
CLAUSE = re.compile(r'^ *(requires|ensures)\b')


class Function:
    """A `pub fn`: its module, the type of which it is a method or None, its name, and the words that its clauses begin with."""

    def __init__(self, module, owner, name, clauses):
        self.module, self.owner, self.name, self.clauses = module, owner, name, clauses

    def is_without(self):
        return 'ensures' not in self.clauses

    def __str__(self):
        return '%s%s%s' % (self.owner + '::' if self.owner else '', self.name, '*' if 'requires' in self.clauses else '')


def clauses_of(lines, at, indent):
    """The first words of the clauses of the function whose head begins at a line: they are before the line of its body's bracket,
    where there are any."""
    words = []
    for line in lines[at:]:
        if line.rstrip() == indent + '{':
            return words
        if found := CLAUSE.match(line):
            words.append(found[1])
        elif not words and line.startswith(indent) and line.rstrip().endswith(('{', '}', ';')) and not line[len(indent):].startswith('    '):
            return words
    return words


def functions_of(module, text):
    """The `pub fn` of a module's file, at its top and in its `impl` blocks."""
    lines, owner = [COMMENT.sub('', line) for line in text.split('\n')], None
    for at, line in enumerate(lines):
        if line[:1] == '}':
            owner = None
        elif found := IMPL.match(line):
            owner = found[1]
        elif found := HEAD.match(line):
            yield Function(module, owner if found[1] else None, found[2], clauses_of(lines, at, found[1]))


def modules_of(crate):
    """The text of each module of a crate, by its path."""
    return {path: text for (of, path), text in definitions.files('src', '.rt').items() if of == crate}


def exports(root, modules):
    """The public modules of a crate, and the items that it exports, by the module that is named with each."""
    public, items = set(PUBLIC_MODULE.findall(root)), {}
    for module, listed, single in REEXPORT.findall(root):
        if any(path.split('/')[0] == module for path in modules):
            for item in (listed or single).split(','):
                items.setdefault(module, set()).add(item.strip().rpartition('::')[2])
    return public, items


def exported(crate):
    """The exported functions of a library crate."""
    modules = modules_of(crate)
    public, items = exports(COMMENT.sub('', modules['lib']), modules)

    def is_in(module, name):
        """Whether an item of this module is exported by its name: functions and types are found in a module and in those below it."""
        return module in public or name in items.get(module.split('/')[0], ())
    types = {found[1] for module, text in modules.items() for line in text.split('\n')
             if (found := TYPE.match(line)) and is_in(module, found[1])}
    return [function for module, text in sorted(modules.items()) for function in functions_of(module, text)
            if (function.owner in types if function.owner else is_in(module, function.name))]


def libraries():
    """The crates that are counted."""
    return sorted({crate for crate, path in definitions.files('src', '.rt') if path == 'lib' and not NO_LIBRARY.fullmatch(crate)})


def counts():
    """How many functions each crate exports, and how many of them have no clause, but for crates that export none."""
    found = {crate: exported(crate) for crate in libraries()}
    return {crate: (sum(function.is_without() for function in functions), len(functions)) for crate, functions in found.items() if functions}


def rows():
    """The counts that the page has."""
    lines = report.text_of(*PAGE).partition(TABLE)[2].partition('\n\n')[0].split('\n')
    return {found[1]: (int(found[2]), int(found[3])) for found in map(ROW.match, lines) if found}


def wrong(row, counted):
    """What is wrong with the row of a crate, or None."""
    if row == counted:
        return None
    if counted[0] > row[0]:
        return '%d functions have no clause, and the page lets %d have none' % (counted[0], row[0])
    return 'the page has %d of %d, and conformance/clauses.py --write gives %d of %d' % (*row, *counted)


def try_all(told):
    """Compares the page with the counts."""
    held, counted = rows(), counts()
    told.part('functions without a clause', len({*held, *counted}) + 1)
    for crate in sorted({*held, *counted}):
        told.count('functions of ' + crate, wrong(held.get(crate, (0, 0)), counted.get(crate, (0, 0))))
    total = ALL % tuple(map(sum, zip(*counted.values())))
    told.count('functions of all crates', None if total in report.text_of(*PAGE) else 'the page lacks ' + total.strip())


def write():
    """Writes the rows, but none that rises."""
    held, counted = rows(), counts()
    risen = [crate for crate, (without, _) in counted.items() if without > held.get(crate, (0, 0))[0]]
    kept = {**counted, **{crate: held[crate] for crate in risen if crate in held}}
    front, head, rest = report.text_of(*PAGE).partition(TABLE)
    lines = ''.join('| `%s` | %d | %d |\n' % (crate, *kept[crate]) for crate in sorted(kept) if crate in held or crate not in risen)
    with open(os.path.join(report.TOP, *PAGE), 'w', encoding='utf-8') as file:
        file.write(front + head + lines + ALL % tuple(map(sum, zip(*kept.values()))) + '\n' + rest.partition('\n\n')[2])
    for crate in risen:
        print('%s: %s' % (crate, wrong(held.get(crate, (0, 0)), counted[crate])))
    return 1 if risen else 0


def print_names(crates):
    """Prints the functions without a clause, crate by crate."""
    for crate in crates:
        functions = exported(crate)
        without = [str(function) for function in functions if function.is_without()]
        print('%s: %d of %d: %s' % (crate, len(without), len(functions), ', '.join(without)))


def main(words):
    if words == ['--write']:
        return write()
    if words[:1] == ['--names']:
        return print_names(words[1:] or libraries())
    told = report.Report()
    try_all(told)
    return told.close()


if __name__ == '__main__':
    sys.exit(main(sys.argv[1:]))
