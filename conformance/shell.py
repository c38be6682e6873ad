#!/usr/bin/env python3
"""shell.py PROGRAM [--only WORD]

Tries the program from the shell, with real files and streams: files that are written, missing or may not be read, folders, and
streams that are files, terminals, full or closed. --only takes the tries whose names hold a word."""
import json
import os
import pty
import re
import select
import shutil
import subprocess
import sys
import time
import tty

import report
from report import Left

HELLO = b'class MAIN is main is #OUT + "Hello\\n"; end; end;'
SUM = b'class MAIN is main is #OUT + (1 + 2); end; end;'
ITER = b'class MAIN is main is loop #OUT + 1.upto!(3); end; end; end;'
FAULT = b'class MAIN is main is #OUT + "a";\n#OUT + 1 / 0; end; end;'
COPY = b'class MAIN is main is loop b ::= #IN.get_byte; while!(b >= 0); #OUT + b.char; end; end; end;'
ENDLESS = b'class MAIN is main is #OUT + "one\\ntwo\\nthree"; loop end; end; end;'
UNKNOWN = b'class MAIN is\nmain is x ::= y; end; end;'
LISTING = b'type ->\nfunc 0\nend\nexport 6d61696e func 0\n'
MAIN = bytes.fromhex('0061736d01000000 010401600000 03020100 070801046d61696e0000 0a040102000b')
SOURCES = {'f.sa': HELLO, 'sum.sa': SUM, 'unknown.sa': UNKNOWN, 'iter.sa': ITER, 'fault.sa': FAULT, 'copy.sa': COPY,
           'endless.sa': ENDLESS, 'main.txt': LISTING}
USAGE = b'usage: sather run, build, check, exec, gen, selftest, listing or assemble\n'
REFUSED = Left(lines=b'unknown.sa:2: E30: unknown name\n', status=120)
STORE_FAULT = Left(lines=b'store fault\n', status=123)
OUTPUT_FAULT = Left(lines=b'output fault\n', status=123)
SHOWING = 20        # the most seconds in which a terminal shows a line of a program that runs


class Shell:
    """The program, and the folder in which it runs."""

    def __init__(self, program, folder):
        self.program, self.folder = program, folder

    def run(self, *words, **how):
        """What the program left."""
        return report.run([self.program, *words], self.folder, **how)

    def on_terminal(self, length, *words):
        """The output of so many bytes that a terminal shows of the program, which is ended then."""
        reader, terminal = pty.openpty()
        tty.setraw(terminal)
        shown, late = b'', time.monotonic() + SHOWING
        with subprocess.Popen([self.program, *words], cwd=self.folder, stdin=subprocess.DEVNULL, stdout=terminal,
                              stderr=subprocess.DEVNULL) as running:
            while len(shown) < length and select.select([reader], [], [], max(late - time.monotonic(), 0))[0]:
                shown += os.read(reader, length)
            running.kill()
        os.close(terminal)
        os.close(reader)
        return Left(shown)

    def path(self, name):
        """The path of a file in the folder."""
        return os.path.join(self.folder, name)

    def programs(self):
        """Programs that are checked and run. As each of the parts below: a name, what was left, and what should be."""
        yield 'a program prints its text', self.run('run', 'f.sa'), Left(b'Hello\n')
        yield 'without words the usage is told', self.run(), Left(lines=USAGE, status=124)
        yield 'a program is accepted', self.run('check', 'f.sa'), Left(b'accepted\n')
        yield 'a program with an iter call is accepted', self.run('check', 'iter.sa'), Left(b'accepted\n')
        yield 'a program with an iter call prints what is yielded', self.run('run', 'iter.sa'), Left(b'123')
        yield 'a program prints a sum', self.run('run', 'sum.sa'), Left(b'3')
        fault = Left(b'a', b'fault.sa:2: fault: division by zero\n', 121)
        yield 'a fault stops a program at its line', self.run('run', 'fault.sa'), fault
        yield 'an unknown name is refused by check', self.run('check', 'unknown.sa'), REFUSED
        yield 'an unknown name is refused by run', self.run('run', 'unknown.sa'), REFUSED

    def files(self):
        """Files that are missing, folders, and files that may not be read."""
        yield 'a file that is missing is a store fault', self.run('run', 'g.sa'), STORE_FAULT
        os.mkdir(self.path('folder'))
        yield 'a folder is a store fault', self.run('run', 'folder'), STORE_FAULT
        os.chmod(self.folder, 0o755)
        os.chmod(self.path('f.sa'), 0)
        # Root may read every file, and nobody may not enter every folder that the program can stand in.
        someone = {'user': 65534} if os.geteuid() == 0 else {}
        shutil.copy(self.program, self.path('program'))
        left = report.run([self.path('program'), 'run', 'f.sa'], self.folder, **someone)
        os.chmod(self.path('f.sa'), 0o644)
        yield 'a file that may not be read is a store fault', left, STORE_FAULT

    def modules(self):
        """Modules that are written and run."""
        yield 'a module is written', self.run('build', '-o', 'm', 'f.sa'), Left()
        told = self.run('run', '--stats', 'f.sa')
        yield 'the module that is written does what the program does', self.run('exec', '--stats', 'm'), told
        yield 'the program prints its text with the statistics', Left(told.output, b'', told.status), Left(b'Hello\n')
        full = self.run('build', '-o', '/dev/full', 'f.sa')
        yield 'a module that can\'t be written is a store fault', full, STORE_FAULT
        yield 'a text is no module', self.run('exec', 'f.sa'), Left(lines=b'f.sa: malformed\n', status=126)
        yield 'a module of a program may have all pages', self.run('exec', '--pages', '65536', 'm'), Left(b'Hello\n')
        few = self.run('exec', '--pages', '1', 'm')
        yield 'a module of a program needs more than a page', few, Left(lines=b'out of memory\n', status=125)

    def sites(self):
        """The sites of faults, in a file of their own."""
        name = 'a "\\\x7f\t\u00e4.sa'
        shutil.copy(self.path('fault.sa'), self.path(name))
        for source in ('fault.sa', name):
            yield 'a module is written with its sites: %r' % source, self.run('build', '--sites', 's', '-o', 'm', source), Left()
            told = self.run('exec', 'm').lines
            site = int(re.fullmatch(rb'm: stop [0-9]+ at ([0-9]+)\n', told).group(1))
            with open(self.path('s'), encoding='utf-8') as file:
                found = json.load(file)[site]
            line = '%s:%d: fault: division by zero\n' % (found['file'], found['line'])
            yield 'the site of a stop is the line of the fault: %r' % source, Left(lines=line.encode()), \
                Left(lines=self.run('run', source).lines)
        os.remove(self.path('s'))
        full = self.run('build', '--sites', 's', '-o', '/dev/full', 'fault.sa')
        yield 'sites aren\'t written where the module can\'t be', full, STORE_FAULT
        yield 'there is no file of these sites', Left(str(os.path.exists(self.path('s'))).encode()), Left(b'False')
        full = self.run('build', '--sites', '/dev/full', '-o', 'm', 'fault.sa')
        yield 'sites that can\'t be written are a store fault', full, STORE_FAULT

    def listings(self):
        """Modules that are listed, and listings that are made modules."""
        yield 'a listing is made a module', self.run('assemble', '-o', 'main', 'main.txt'), Left()
        with open(self.path('main'), 'rb') as file:
            yield 'the module of a listing has its bytes', Left(file.read()), Left(MAIN)
        yield 'the module has the listing', self.run('listing', 'main'), Left(LISTING)
        yield 'a text is no listing', self.run('assemble', '-o', 'n', 'f.sa'), Left(lines=b'f.sa:1: no listing\n', status=126)
        with open(self.path('large'), 'wb') as file:
            file.truncate(67_108_865)
        yield 'a file that is too large is no module', self.run('listing', 'large'), Left(lines=b'large: malformed\n', status=126)
        left = self.run('assemble', '-o', 'n', 'large')
        yield 'a file that is too large is no listing by line 0', left, Left(lines=b'large:0: no listing\n', status=126)

    def streams(self):
        """Streams that are files, full or closed."""
        with open(self.path('copy.sa'), 'rb') as given:
            copied = self.run('run', 'copy.sa', stdin=given)
        yield 'a program copies a file from its input', copied, Left(COPY)
        with open('/dev/full', 'wb') as full:
            yield 'a full output is an output fault', self.run('run', 'f.sa', stdout=full), OUTPUT_FAULT
        closed = report.run(['sh', '-c', 'exec "$0" run f.sa >&-', self.program], self.folder)
        yield 'a closed output is an output fault', closed, OUTPUT_FAULT

    def inputs(self):
        """The input as a file: through pipes, at once and slowly, and where it can't be read."""
        def shell(line):
            return report.run(['sh', '-c', line, self.program], self.folder)
        accepted = Left(b'accepted\n')
        yield 'a program comes through a pipe', shell('cat f.sa | "$0" check -'), accepted
        slowly = 'for part in "class MAIN is" "main is end;" "end;"; do echo "$part"; sleep 0.3; done | "$0" check -'
        yield 'a program comes through a pipe part by part', shell(slowly), accepted
        yield 'a program that is printed is checked behind a pipe', shell('"$0" gen 500 | "$0" check -'), accepted
        yield 'a program comes from a file', shell('"$0" check - <f.sa'), accepted
        around = '"$0" listing - <main | "$0" assemble -o again - && cat again'
        yield 'a module that goes through pipes as a listing has its bytes', shell(around), Left(MAIN)
        yield 'an input that is closed is a store fault', shell('exec "$0" check - <&-'), STORE_FAULT
        yield 'a folder as the input is a store fault', shell('"$0" check - <.'), STORE_FAULT
        told = STORE_FAULT.lines + b'The input can\'t be read: it was closed, or it is a folder.\nGive it a text, as by `< FILE`.\n'
        yield 'an input that can\'t be read is explained', shell('"$0" check --explain - <.'), Left(lines=told, status=123)

    def terminals(self):
        """Lines of programs that run on, on a terminal."""
        lines = Left(b'one\ntwo\n')
        yield 'a terminal shows the lines of a program that never ends', self.on_terminal(8, 'run', 'endless.sa'), lines
        yield 'a module is written that never ends', self.run('build', '-o', 'endless', 'endless.sa'), Left()
        yield 'a terminal shows the lines of a module that never ends', self.on_terminal(8, 'exec', 'endless'), lines
        yield 'a terminal shows the lines of a traced program', self.on_terminal(8, 'run', '--trace', 'endless.sa'), lines
        whole, spent = b'one\ntwo\nthree', b'fuel spent\n'
        bounded = 'run', '--fuel', '1000000', 'endless.sa'
        yield 'a terminal shows what has no end of line at the end', self.on_terminal(13, *bounded), Left(whole)
        yield 'a pipe has the same bytes', self.run(*bounded), Left(whole, spent, 122)


def try_all(program, told, word=''):
    """Tries what has a name that holds the word."""
    with report.folder_with(SOURCES) as folder:
        shell = Shell(program, folder)
        parts = (shell.programs, shell.files, shell.modules, shell.sites, shell.listings, shell.streams,
                 shell.inputs, shell.terminals)
        chosen = [(name, report.difference(wanted, left)) for part in parts for name, left, wanted in part() if word in name]
    told.part('command lines', len(chosen))
    for name, wrong in chosen:
        told.count(name, wrong)


if __name__ == '__main__':
    sys.exit(report.of_script(__doc__, try_all))
