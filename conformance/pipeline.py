#!/usr/bin/env python3
"""pipeline.py PROGRAM

Compares docs/PIPELINE.md with the program. The first block of the page is the source. Each block of `sh` has commands, which are run
in a folder with this source in squares.sa, and the next block shows what the last of them prints, line by line: a line `..` stands for
lines that are left out. The lines of a listing are shown set in, as they nest, and are compared without that."""
import os
import re
import shlex
import sys

import report

BLOCK = re.compile(r'^```(\w*)\n(.*?)^```$', re.M | re.S)
LEFT_OUT = '..'
ANY_LINES = r'(?:.*\n)*?'


def forms():
    """The source of the page, and the commands of each form with what is shown of it."""
    (_, source), *blocks = BLOCK.findall(report.text_of('docs', 'PIPELINE.md'))
    return source, [(commands.splitlines(), shown) for (kind, commands), (_, shown) in zip(blocks, blocks[1:]) if kind == 'sh']


def is_part(shown, printed):
    """Whether what is shown is what was printed, but for the lines that are left out."""
    pattern = ''.join(ANY_LINES if line.strip() == LEFT_OUT else re.escape(line) + r'\n' for line in shown.splitlines())
    return re.fullmatch(pattern, printed) is not None


def unindented(text):
    """The lines of a text without the spaces in front of them."""
    return re.sub(r'^ +', '', text, flags=re.M)


def difference(program, folder, commands, shown):
    """What is wrong with the commands of a form, or None."""
    left = report.Left()
    for command in commands:
        words = [program if word == 'sather' else word for word in shlex.split(command)]
        left = report.run(words, folder)
        if left.status != 0:
            return '%s: status %d, %r' % (command, left.status, left.lines)
    printed = left.output.decode()
    if commands[-1].startswith('sather listing'):
        shown, printed = unindented(shown), unindented(printed)
    return None if is_part(shown, printed) else '%s: the page shows something else than %.2000s' % (commands[-1], printed)


def try_all(program, told):
    """Compares each form."""
    source, shown = forms()
    told.part('the page of the pipeline', len(shown))
    with report.folder_with({'squares.sa': source.encode()}) as folder:
        for commands, text in shown:
            told.count('the pipeline, ' + commands[-1], difference(program, folder, commands, text))


def main():
    told = report.Report()
    try_all(os.path.abspath(sys.argv[1]), told)
    return told.close()


if __name__ == '__main__':
    sys.exit(main())
