#!/usr/bin/env python3
"""invariants.py: compares the table of invariants of docs/PROOFS.md with the sources.

Each variant of `Invariant` (crates/failure) has one row of the table, and each row is of a variant. A row names exactly the crates
whose code names the variant. Told too is code of the compiler that answers as want of memory where memory hasn't run out: the forms
that stood for a broken invariant before these had names."""
import os
import re
import sys

import report

PAGE = ('docs', 'PROOFS.md')
SECTION = '## Where a broken invariant would be reported as an internal error\n'
ROW = re.compile(r'^\| `(\w+)` \| ([^|]*) \|', re.M)
VARIANT = re.compile(r'^ {12}Invariant::(\w+) => "', re.M)
NAMED = re.compile(r'\bInvariant::(\w+)')
COMMENT = re.compile(r'//.*')
OLD_FORMS = re.compile(r'(?<![\w.])held\(|ok_or\(NoMemory\)|map_err\(\|_\| ?NoMemory\)|\breturn Err\(NoMemory\)')
OF_COMPILER = re.compile(r'sa_\w+')


def rows():
    """The crates that each row of the table names, by its variant, and the variants that have several rows."""
    section = report.text_of(*PAGE).partition(SECTION)[2].partition('\n## ')[0]
    found, twice = {}, []
    for variant, crates in ROW.findall(section):
        if variant in found:
            twice.append(variant)
        found[variant] = set(re.findall(r'`(\w+)`', crates))
    return found, twice


def variants():
    """The variants that the crate has."""
    return VARIANT.findall(report.text_of('crates', 'failure', 'src', 'invariant.rt'))


def sources():
    """The code of each file of the compiler without comments, by the crate and the path in it."""
    crates = os.path.join(report.TOP, 'crates')
    for crate in sorted(filter(OF_COMPILER.fullmatch, os.listdir(crates))):
        for folder, _, names in sorted(os.walk(os.path.join(crates, crate, 'src'))):
            for name in sorted(name for name in names if name.endswith('.rt')):
                path = os.path.join(folder, name)
                yield crate, os.path.relpath(path, report.TOP), COMMENT.sub('', report.text_of(path))


def try_all(told):
    """Compares the table with the sources."""
    known, (table, twice), users, old = variants(), rows(), {}, []
    for crate, path, code in sources():
        for variant in NAMED.findall(code):
            users.setdefault(variant, set()).add(crate)
        old += ['%s has `%s`' % (path, form) for form in OLD_FORMS.findall(code)]
    told.part('the invariants of docs/PROOFS.md', len(known))
    for variant in known:
        listed, used = table.get(variant, set()), users.get(variant, set())
        wrong = ['the table lacks %s' % crate for crate in sorted(used - listed)]
        wrong += ['%s doesn\'t name it' % crate for crate in sorted(listed - used)]
        wrong += ['it has no row'] * (variant not in table) + ['it has several rows'] * (variant in twice)
        wrong += ['no code names it'] * (not used)
        told.count(variant, '; '.join(wrong) or None)
    for variant in sorted(set(table) - set(known)):
        told.count(variant, 'a row is of it, and it is no variant')
    for one in old:
        told.count('old forms', one)


def main(words):
    if words:
        print(__doc__)
        return 2
    told = report.Report()
    try_all(told)
    return told.close()


if __name__ == '__main__':
    sys.exit(main(sys.argv[1:]))
