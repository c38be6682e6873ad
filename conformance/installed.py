#!/usr/bin/env python3
"""installed.py PROGRAM [--only WORD]

Compares what ./install puts beside the program with the program, and tries ./install.

- The synopsis in man/sather.1 begins with the commands of the usage line, in its order, and each command takes the options that
  the synopsis gives it and no others; the options of the page are those of the synopsis, and its statuses those of docs/.
- `sather help` has a line for each command of the synopsis, and `sather help COMMAND` one for each of its options.
- The completions of bash and zsh offer these commands, and for each command these options.
- What is put below a folder runs, also beside a class of the library, and is gone when it is taken out again, while what was there
  before stays.

--only takes the tries whose names hold a word."""
import functools
import os
import re
import shutil
import sys

import report
from report import Left

INSTALL = os.path.join(report.TOP, 'install')
BASH = os.path.join(report.TOP, 'completions', 'sather.bash')
ZSH = os.path.join(report.TOP, 'completions', '_sather')
USAGE = 124
VALUES = {'--fuel': ['1000'], '--pages': ['9'], '--room': ['64'], '--stats': [], '--contracts': [], '--trace': [], '--all': [],
          '--ast': [], '--typed': [], '--cfg': [], '--regions': [], '--explain': [], '--sites': ['sites'], '-o': ['out']}
OWN = {'gen': ['3'], 'selftest': ['3'], 'help': ['run'], 'version': [], 'explain': ['E33'], 'lib': ['fmap']}
FORMS = ('--ast', '--typed', '--cfg', '--regions')
HELLO = b'class MAIN is main is #OUT + "Hello\\n"; end; end;'
# Prints what bash offers for the last of the words.
IN_BASH = 'source "$0"; COMP_WORDS=("$@"); COMP_CWORD=$(($# - 1)); _sather; printf "%s\\n" "${COMPREPLY[@]}"'


def sections():
    """The sections of the man page by their names, without the marks of fonts."""
    page = re.sub(r'^\.(?:[BIR]{1,2}|br) ?', '', report.text_of('man', 'sather.1'), flags=re.M).replace('\\-', '-')
    parts = re.split(r'^\.SH (.*)\n', page, flags=re.M)
    return dict(zip(parts[1::2], parts[2::2]))


def synopsis():
    """The options of each command of the man page's synopsis."""
    calls = re.split(r'^sather ', sections()['SYNOPSIS'], flags=re.M)[1:]
    return {call.split()[0]: re.findall(r'(?<!\w)--?[a-z]+', call) for call in calls}


def usage_differs(program):
    """Where the commands of the usage line are others than the first ones of the synopsis, or None."""
    with report.folder_with({}) as folder:
        line = report.run([program], folder).lines.decode()
    told = re.split(', | or ', line.removeprefix('usage: sather ').rstrip('\n'))
    if told != list(synopsis())[:len(told)]:
        return 'the usage line has %s, and the synopsis %s' % (told, list(synopsis()))
    return None


def help_of(program, *words):
    """What stands at the beginnings of the lines that are set in in what `help` prints."""
    left = report.run([program, 'help', *words], report.TOP)
    return re.findall(r'^  (?:sather )?(\S+)', left.output.decode(), re.M) if left.status == 0 else []


def help_differs(program):
    """Where `help` has other commands than the synopsis, or the help of a command other options, or None."""
    commands = help_of(program)[:len(synopsis())]
    if commands != list(synopsis()):
        return 'help has the commands %s' % commands
    for command, options in synopsis().items():
        found = [word for word in help_of(program, command) if word.startswith('-')]
        if sorted(found) != sorted(options):
            return '%s: help has the options %s, and the synopsis %s' % (command, found, options)
        if command not in help_of(program, command):
            return '%s: its help has no example' % command
    return None


def needed_by(command, option):
    """What a command needs beside an option and its own words."""
    if command in ('build', 'assemble') and option != '-o':
        return ['-o', 'out']
    return ['--ast'] if command == 'dump' and option not in FORMS else []


def options_differ(program, command):
    """Which options the command takes against the synopsis, or the other way round, or None."""
    own, taken = OWN.get(command, ['f.sa']), []
    with report.folder_with({'f.sa': HELLO}) as folder:
        for option, value in VALUES.items():
            needed = needed_by(command, option)
            if report.run([program, command, option, *value, *needed, *own], folder).status != USAGE:
                taken.append(option)
    given = synopsis()[command]
    return None if sorted(taken) == sorted(given) else 'the program takes %s, and the synopsis has %s' % (taken, given)


def page_differs():
    """Where the sections of the man page differ from its synopsis and from the statuses of docs/, or None."""
    names = {'COMMANDS': list(synopsis()), 'OPTIONS': [*VALUES, '-h', '-V']}
    for section, wanted in names.items():
        found = [line.split()[0] for line in re.findall(r'^\.TP\n(.*)', sections()[section], re.M)]
        if found != wanted:
            return '%s: expected %s, and came %s' % (section, wanted, found)
    statuses = set(re.findall(r'^\.TP\n(\d+)', sections()['EXIT STATUS'], re.M))
    tables = report.text_of('docs', 'LANGUAGE.md') + report.text_of('docs', 'WEBASSEMBLY.md')
    of_docs = set(re.findall(r'^\|(?:[^|]*\|)? (70|12\d) \|', tables, re.M))
    return None if statuses == of_docs else 'the page has the statuses %s, and docs/ %s' % (sorted(statuses), sorted(of_docs))


def bash_differs():
    """Where bash offers something else than the synopsis, or None."""
    def offered(*words):
        left = report.run(['bash', '-c', IN_BASH, BASH, 'sather', *words], report.TOP)
        return sorted(left.output.decode().split()), left.lines
    wanted = {('',): list(synopsis()), **{(command, '-'): options for command, options in synopsis().items()}}
    for words, told in wanted.items():
        if offered(*words) != (sorted(told), b''):
            return 'behind %s expected %s, and came %s' % (words, sorted(told), offered(*words))
    return None


def zsh_differs():
    """Where the words of the zsh completion are others than those of the synopsis, or None."""
    text = report.text_of('completions', '_sather')
    commands = re.findall(r"^  '(\w+):", text, re.M)
    if commands != list(synopsis()):
        return 'expected the commands %s, and came %s' % (list(synopsis()), commands)
    for command, options in synopsis().items():
        line = re.search(r'^  (?:\w+\|)?%s(?:\|\w+)?\) (.*) ;;$' % command, text, re.M).group(1)
        found = re.findall(r'\$(fuel|pages|room|stats|contracts|trace|all|ast|typed|cfg|regions|explain)\b|\'(-o|--sites)\[', line)
        if ['--' + name if name else other for name, other in found] != options:
            return '%s: expected the options %s, and came the line %s' % (command, options, line)
    return None


def files_below(folder):
    """The names below a folder of its files and folders."""
    return sorted(os.path.relpath(os.path.join(place, name), folder) for place, folders, files in os.walk(folder)
                  for name in [*folders, *files])


def install_differs():
    """What is wrong with what ./install puts and takes out, or None."""
    with report.folder_with({'f.sa': HELLO, 'to/share/man/other': b''}) as folder:
        prefix, before = os.path.join(folder, 'to'), files_below(folder)
        for _ in range(2):
            left = report.run([INSTALL, prefix], folder)
            if left != Left():
                return 'install left %r' % left
        library = os.path.join(prefix, 'share', 'sather', 'lib', 'fmap.sa')
        ran = report.run([os.path.join(prefix, 'bin', 'sather'), 'run', 'f.sa', library], folder)
        removed = report.run([INSTALL, '--remove', prefix], folder)
        if removed != Left() or files_below(folder) != before:
            return '--remove left %r and the files %s' % (removed, files_below(folder))
        return report.difference(Left(b'Hello\n'), ran)


def tries(program, told):
    """The tries: what is tried, and a call that gives what is wrong."""
    yield 'the commands of the man page are those of the usage line', functools.partial(usage_differs, program)
    yield 'help has the commands and options of the man page', functools.partial(help_differs, program)
    for command in synopsis():
        yield 'the man page has the options of %s' % command, functools.partial(options_differ, program, command)
    yield 'the man page tells each command, option and status', page_differs
    if shutil.which('bash'):
        yield 'the completion of bash offers the words of the man page', bash_differs
    else:
        told.lacks('bash', 'its completion was not tried')
    yield 'the completion of zsh has the words of the man page', zsh_differs
    yield 'what is installed runs and is taken out again', install_differs


def try_all(program, told, word=''):
    """Tries what has a name that holds the word."""
    chosen = [(name, wrong) for name, wrong in tries(program, told) if word in name]
    told.part('what is installed', len(chosen))
    for name, wrong in chosen:
        told.count(name, wrong())


if __name__ == '__main__':
    sys.exit(report.of_script(__doc__, try_all))
