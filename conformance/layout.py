#!/usr/bin/env python3
"""layout.py: compares crates.txt with the crates of docs/ARCHITECTURE.md.

Both have the same groups in the order of the pipeline, `# NAME` in the one and `### NAME` in the other, and in each group the same
crates in the same order, a crate after those of its group that it uses. What a row of the page says that its crate uses is what the
line of crates.txt lists. Each folder of crates/ has a line."""
import os
import re
import sys

import report

LIST, PAGE = ('crates.txt',), ('docs', 'ARCHITECTURE.md')
SECTION = re.compile(r'^## The crates\n(.*?)^## ', re.M | re.S)
HEADING = re.compile(r'^### (.*)$', re.M)
ROW = re.compile(r'^\| `(\w+)` \|([^|]*)\|', re.M)


def of_list(text):
    """The groups of crates.txt in their order: the name of each, and what each of its crates lists."""
    groups = []
    for line in filter(None, map(str.strip, text.split('\n'))):
        if line.startswith('#'):
            groups.append((line[1:].strip(), {}))
        else:
            head, _, uses = line.partition(':')
            if not groups:
                groups.append(('no group', {}))
            groups[-1][1][head.split()[0]] = uses.split()
    return groups


def of_page(text):
    """The groups of the page in their order: the name of each, and what each of its crates uses by its row."""
    _, *parts = HEADING.split(SECTION.search(text)[1])
    return [(name, {crate: re.findall(r'`(\w+)`', uses) for crate, uses in ROW.findall(rows)})
            for name, rows in zip(parts[0::2], parts[1::2])]


def shown(names):
    return ', '.join(names) or 'none'


def group_differs(listed, told):
    """Where a group has other crates on the page than in crates.txt, or None."""
    if list(listed) == list(told):
        return None
    missing, more = [it for it in listed if it not in told], [it for it in told if it not in listed]
    if missing or more:
        return 'crates.txt alone has %s, and the page alone %s' % (shown(missing), shown(more))
    return 'crates.txt has them in the order %s, and the page in the order %s' % (shown(listed), shown(told))


def order_differs(listed):
    """The first crate of a group that comes before one of the group that it uses, or None."""
    names = list(listed)
    return next(('%s comes before %s, which it uses' % (crate, used) for crate, uses in listed.items() for used in uses
                 if used in names and names.index(used) > names.index(crate)), None)


def try_all(told):
    """Compares the two, group by group and crate by crate."""
    listed, page = of_list(report.text_of(*LIST)), of_page(report.text_of(*PAGE))
    lines = {crate: uses for _, crates in listed for crate, uses in crates.items()}
    told.part('the layout', 2 + 2 * len(listed) + len(lines))
    names, of_the_page = [name for name, _ in listed], [name for name, _ in page]
    told.count('groups', None if names == of_the_page else 'crates.txt has %s, and the page %s' % (shown(names), shown(of_the_page)))
    folders = sorted(os.listdir(os.path.join(report.TOP, 'crates')))
    told.count('folders of crates/', None if folders == sorted(lines) else 'without a line: %s; lines without a folder: %s' % (
        shown(sorted(set(folders) - set(lines))), shown(sorted(set(lines) - set(folders)))))
    for name, crates in listed:
        told.count(name, group_differs(crates, dict(page).get(name, {})))
        told.count(name + ', crates below first', order_differs(crates))
    for crate, uses in ((crate, uses) for _, rows in page for crate, uses in rows.items()):
        more = [it for it in uses if it not in lines.get(crate, [])]
        told.count(crate, 'crates.txt has no %s in its line' % shown(more) if more else None)


def main():
    told = report.Report()
    try_all(told)
    return told.close()


if __name__ == '__main__':
    sys.exit(main())
