#!/usr/bin/env python3
"""hostile.py PROGRAM [--only WORD]

Tries the program where the world is against it, with real files, disks and streams: what is named is no file, has no end, or
changes between two reads; a name is an odd one; the module can't be written, or only a part of it; a stream is full, closed, or
closed in the midst. Each answer is one of the table of how a program ends, out has a front of what was due, and the file of
`build -o` what it held or a front of the module.

Full and read-only disks are mounted in a namespace of their own, where that is allowed. --only takes the tries whose names hold
a word."""
import contextlib
import fcntl
import os
import shutil
import signal
import socket
import subprocess
import sys

import report
from report import Left

HELLO = b'class MAIN is main is #OUT + "Hello\\n"; end; end;'
UNKNOWN = b'class MAIN is\nmain is x ::= y; end; end;'
ENDLESS = b'class MAIN is main is loop #OUT + "and so on\\n"; end; end; end;'
LONG = b'class MAIN is main is loop i ::= 0.upto!(9999); #OUT + "0123456\\n"; end; end; end;'
ASKS = b'class MAIN is main is #OUT + "q"; loop b ::= #IN.get_byte; while!(b >= 0); #OUT + b.char; end; #OUT + "."; end; end;'
FAULT = b'class MAIN is main is #OUT + "a"; #OUT + 1 / 0; end; end;'
WIDE = b'class MAIN is main is #OUT + "%s"; end; end;' % (b'w' * 20_000)
SOURCES = {'f.sa': HELLO, 'unknown.sa': UNKNOWN, 'endless.sa': ENDLESS, 'long.sa': LONG, 'asks.sa': ASKS, 'fault.sa': FAULT,
           'wide.sa': WIDE}
LONG_OUTPUT = b'0123456\n' * 10_000

USAGE = Left(lines=b'usage: sather run, build, check, exec, gen, selftest, listing or assemble\n', status=124)
STORE_FAULT = Left(lines=b'store fault\n', status=123)
INPUT_FAULT = Left(b'q', b'input fault\n', 123)
OUTPUT_FAULT = Left(lines=b'output fault\n', status=123)
FAULTED = Left(b'a', b'fault.sa:1: fault: division by zero\n', 121)

LARGE = 4 << 30     # bytes of a file that has no content
DISK = 8192         # bytes of the disk that gets full: fewer than the module of WIDE has
CUT = 4096          # the most bytes of a file where a limit cuts it
NOBODY = 65534


def refused(name, rest):
    """What is left where the source of this name is refused."""
    return Left(lines=b'%s:%s\n' % (name.encode(), rest), status=120)


def malformed(name):
    """What is left where the file of this name is no module."""
    return Left(lines=b'%s: malformed\n' % name.encode(), status=126)


@contextlib.contextmanager
def unread_pipe():
    """The end of a pipe into which one writes, and which nobody reads."""
    reading, writing = os.pipe()
    os.close(reading)
    yield writing
    os.close(writing)


class Host:
    """The program, the folder in which it runs, and the report."""

    def __init__(self, program, folder, told):
        self.program, self.folder, self.told = program, folder, told
        self.run('build', '-o', 'module', 'f.sa')
        self.module = self.content('module')
        self.run('build', '-o', 'wide', 'wide.sa')
        self.wide_module = self.content('wide')
        shutil.copy(program, self.path('program'))
        os.mkdir(self.path('folder'))
        os.mkfifo(self.path('pipe'))
        os.symlink('loop', self.path('loop'))
        os.symlink('nothing', self.path('to_nothing'))

    def run(self, *words, **how):
        """What the program left."""
        return report.run([self.program, *words], self.folder, **how)

    def shell(self, text, *words):
        """What a shell left that runs this text, in which "$@" is the program with the words."""
        return report.run(['sh', '-c', text, 'sh', self.program, *words], self.folder)

    def path(self, name):
        """The path of a file in the folder."""
        return os.path.join(self.folder, name)

    def content(self, name):
        """The bytes of a file in the folder, or None where it isn't there."""
        with contextlib.suppress(FileNotFoundError), open(self.path(name), 'rb') as file:
            return file.read()
        return None

    def put(self, name, content):
        """Makes a file in the folder hold these bytes."""
        with open(self.path(name), 'wb') as file:
            file.write(content)

    def wrong(self, wanted, left, name=None, content=None):
        """What is wrong with what was left, and with the content of a file where one is named. None is a file that isn't there."""
        wrong = report.difference(wanted, left)
        if wrong is None and name is not None and self.content(name) != content:
            return '%s holds %.60r, and not %.60r' % (name, self.content(name), content)
        return wrong

    def no_files(self):
        """Sources and modules that can't be read at a place. As each of the parts below: the names of tries, and what is wrong."""
        # Without a writer the opening of a pipe would wait for one.
        writer = os.open(self.path('pipe'), os.O_RDWR)
        with socket.socket(socket.AF_UNIX) as listening:
            listening.bind(self.path('socket'))
            for what, name in (('a folder', 'folder'), ('a named pipe', 'pipe'), ('a socket', 'socket'),
                               ('a link to itself', 'loop'), ('a link to nothing', 'to_nothing'), ('a file as a folder', 'f.sa/g'),
                               ('a name too long', 'n' * 256), ('a path too long', 'n/' * 3000), ('an empty name', ''),
                               ('a device whose reads fail', '/proc/self/mem')):
                for words in (('check', name), ('run', 'f.sa', name), ('build', '-o', 'unmade', name), ('exec', name)):
                    wrong = self.wrong(STORE_FAULT, self.run(*words), 'unmade')
                    yield '%s is a store fault: %s' % (what, words[0]), wrong
        os.close(writer)
        piped = self.run('run', '/dev/stdin', input=HELLO)
        yield 'a pipe as a source is a store fault', self.wrong(STORE_FAULT, piped)
        with open(self.path('f.sa'), 'rb') as given:
            left = self.run('run', '/dev/stdin', stdin=given)
        yield 'a source may be the input where that is a file', self.wrong(Left(b'Hello\n'), left)

    def endless_files(self):
        """Files and devices whose end is out of reach, or where they begin."""
        with open(self.path('large'), 'wb') as file:
            file.truncate(LARGE)
        for name, rest in (('/dev/zero', b'1: E50: source too large'), ('large', b'1: E50: source too large'),
                           ('/dev/null', b'1: E24: no MAIN::main')):
            yield '%s is refused as a source' % name, self.wrong(refused(name, rest), self.run('check', name))
            yield '%s is no module' % name, self.wrong(malformed(name), self.run('exec', name))

    def names(self):
        """Names that a shell would have to quote."""
        for name in ('two\nlines.sa', ' .sa', '-f.sa', '"\'$`\\.sa', 'W\u00f6rter.sa', '\x7f\x1b[2J.sa', 'n' * 255, '.sa\r'):
            self.put(name, UNKNOWN)
            wanted = refused(name, b'2: E30: unknown name')
            yield 'a name is told as it is: %.20r' % name, self.wrong(wanted, self.run('check', '--', name))
            yield 'a module\'s name is told as it is: %.20r' % name, self.wrong(malformed(name), self.run('exec', '--', name))
            left = self.run('build', '-o', './' + name, 'f.sa')
            yield 'a module has the name %.20r' % name, self.wrong(Left(), left, name, self.module)
        for word in (b'\xff.sa', b'f\xc3.sa', b'\xed\xa0\x80'):
            shutil.copy(self.path('f.sa'), os.path.join(os.fsencode(self.folder), word))
            for words in ((b'run', word), (b'build', b'-o', word, b'f.sa'), (word,), (b'run', b'--fuel', word, b'f.sa')):
                yield 'words that aren\'t UTF-8 are no command: %r' % (words,), self.wrong(USAGE, self.run(*words))

    def changed(self, first, second, *words):
        """What the program left that reads the file `link`, which holds the first bytes at its first opening and the second ones
        from then on, or is gone where they are None."""
        def change(*_):
            if second is None:
                os.remove(self.path('link'))
            else:
                self.put('second', second)
                os.replace(self.path('second'), self.path('link'))
            fcntl.fcntl(file, fcntl.F_SETLEASE, fcntl.F_UNLCK)

        self.put('first', first)
        with contextlib.suppress(FileNotFoundError):
            os.remove(self.path('link'))
        os.symlink('first', self.path('link'))
        with open(self.path('first'), 'rb') as file:
            former = signal.signal(signal.SIGIO, change)
            try:
                # The opening of a leased file waits until the lease is given up.
                fcntl.fcntl(file, fcntl.F_SETLEASE, fcntl.F_WRLCK)
                return self.run(*words)
            finally:
                signal.signal(signal.SIGIO, former)

    def between_reads(self):
        """Files that another one takes the place of between the first read and the second."""
        try:
            gone = self.changed(HELLO, None, 'run', 'link')
        except OSError:
            self.told.leave_out('tries with files that change between two reads, as the folder\'s disk has no leases')
            return
        yield 'a source that is gone at its second read is a store fault', self.wrong(STORE_FAULT, gone)
        gone = self.changed(self.module, None, 'exec', 'link')
        yield 'a module that is gone at its second read is a store fault', self.wrong(STORE_FAULT, gone)
        left = self.changed(HELLO, HELLO[:20], 'run', 'link')
        yield 'a source that gets shorter is what the reads gave', self.wrong(Left(b'Hello\n'), left)
        left = self.changed(HELLO, b'x' * len(HELLO) + b'\n?', 'run', 'link')
        yield 'a source that gets longer is what the reads gave', self.wrong(refused('link', b'2: E01: bad byte'), left)
        left = self.changed(self.module, self.module + b'\0', 'exec', 'link')
        yield 'a module that gets longer is what the reads gave', self.wrong(malformed('link'), left)

    def places(self):
        """Places where no module can be written, and such where one may stand."""
        for what, name in (('a missing folder', 'missing/m'), ('a folder', 'folder'), ('a name too long', 'n' * 256),
                           ('an empty name', ''), ('a link to itself', 'loop'), ('a file as a folder', 'f.sa/m'),
                           ('a full device', '/dev/full')):
            wrong = self.wrong(STORE_FAULT, self.run('build', '-o', name, 'f.sa'), 'missing')
            yield '%s for a module is a store fault' % what, wrong
        self.put('own.sa', HELLO)
        left = self.run('build', '-o', 'own.sa', 'own.sa')
        yield 'a module may not take its source\'s place', self.wrong(USAGE, left, 'own.sa', HELLO)
        self.put('m', b'old')
        left = self.run('build', '-o', 'm', 'unknown.sa')
        wanted = refused('unknown.sa', b'2: E30: unknown name')
        yield 'a refused source leaves what is there', self.wrong(wanted, left, 'm', b'old')
        self.put('m', b'x' * 100_000)
        left = self.run('build', '-o', 'm', 'f.sa')
        yield 'nothing of a longer file is left behind a module', self.wrong(Left(), left, 'm', self.module)
        yield 'a module may be thrown away', self.wrong(Left(), self.run('build', '-o', '/dev/null', 'f.sa'))
        left = self.run('build', '-o', '/dev/stdout', 'f.sa')
        yield 'a module may go to out', self.wrong(Left(self.module), left)
        left = report.run([self.path('program'), 'build', '-o', 'program', 'f.sa'], self.folder)
        wrong = self.wrong(STORE_FAULT, left, 'program', self.content(self.program))
        yield 'the program that runs is no place for a module', wrong

    def limits(self):
        """Files that a limit of the shell cuts, whose signal is ignored, as `./sather` does."""
        def limited(most, rest):
            return 'trap "" XFSZ; ulimit -f %d; exec "$@" %s' % (most // 512, rest)
        self.put('m', b'old')
        left = self.shell(limited(CUT, ''), 'build', '-o', 'm', 'wide.sa')
        yield 'a module that a limit cuts is a store fault', self.wrong(STORE_FAULT, left, 'm', self.wide_module[:CUT])
        left = self.shell(limited(CUT, '> cut'), 'run', 'long.sa')
        yield 'an output that a limit cuts is an output fault', self.wrong(OUTPUT_FAULT, left, 'cut', LONG_OUTPUT[:CUT])
        left = self.shell(limited(0, '2> cut'), 'run', 'fault.sa')
        wanted = Left(FAULTED.output, b'', FAULTED.status)
        yield 'where a limit cuts err, output and status stand', self.wrong(wanted, left, 'cut', b'')

    def on_disk(self, before, *words, streams='', after=''):
        """What the program left on a small disk of its own, with words of the shell before and after it."""
        text = 'mount -t tmpfs -o size=%d,nr_inodes=8 disk disk && cd disk && %s { "$@" %s; status=$?; %s exit $status; }' % (
            DISK, before, streams, after)
        shell = ['unshare', '--map-root-user', '--mount', 'sh', '-c', text, 'sh', *words]
        return report.run(shell, self.folder)

    def disks(self):
        """Disks that get full, are full or can't be written."""
        os.mkdir(self.path('disk'))
        if shutil.which('unshare') is None or self.on_disk('', 'true').status != 0:
            self.told.leave_out('tries with full and read-only disks, which may not be mounted here')
            return
        build, run = (self.program, 'build', '-o', 'm', '../wide.sa'), (self.program, 'run')
        left = self.on_disk('', *build, after='cp m ..;')
        yield 'a module on a disk that gets full is a store fault', self.wrong(STORE_FAULT, left, 'm', self.wide_module[:DISK])
        left = self.on_disk('', *run, '../long.sa', streams='> out', after='cp out ..;')
        yield 'an output on a disk that gets full is an output fault', self.wrong(OUTPUT_FAULT, left, 'out', LONG_OUTPUT[:DISK])
        left = self.on_disk('head -c %d /dev/zero > all;' % DISK, *run, '../fault.sa', streams='2> err', after='cp err ..;')
        wanted = Left(FAULTED.output, b'', FAULTED.status)
        yield 'where err is on a full disk, output and status stand', self.wrong(wanted, left, 'err', b'')
        left = self.on_disk('for i in 1 2 3 4 5 6 7; do : > $i; done;', *build)
        yield 'a disk without room for a file is a store fault', self.wrong(STORE_FAULT, left)
        left = self.on_disk('echo old > m; mount -t tmpfs -o remount,ro disk "$PWD";', *build, after='cp m ..;')
        yield 'a read-only disk is a store fault', self.wrong(STORE_FAULT, left, 'm', b'old\n')

    def rights(self):
        """Files that somebody may not read or write."""
        # Root may do everything, and nobody may not enter every folder that the program can stand in.
        someone = {'user': NOBODY} if os.geteuid() == 0 else {}
        os.chmod(self.folder, 0o755)
        os.mkdir(self.path('closed'))
        for name, content, mode in (('closed/f.sa', HELLO, 0o644), ('unread.sa', HELLO, 0), ('unread', self.module, 0),
                                    ('written', b'old', 0o444)):
            self.put(name, content)
            os.chmod(self.path(name), mode)
        os.chmod(self.path('closed'), 0)
        for words in (('check', 'unread.sa'), ('exec', 'unread'), ('run', 'closed/f.sa'), ('build', '-o', 'closed/m', 'f.sa'),
                      ('build', '-o', 'written', 'f.sa')):
            left = report.run([self.path('program'), *words], self.folder, **someone)
            yield 'what may not be used is a store fault: %s' % ' '.join(words), self.wrong(STORE_FAULT, left)
        os.chmod(self.path('closed'), 0o755)
        yield 'what may not be written stays', self.wrong(Left(), Left(), 'written', b'old')

    def unread(self):
        """Pipes that nobody reads, whether or not the caller ignores their signal, and pipes that are closed in the midst."""
        for words in (('run', 'f.sa'), ('run', 'endless.sa'), ('check', 'f.sa'), ('exec', 'module'), ('gen', '500'),
                      ('selftest', '3'), ('run', 'fault.sa')):
            for restored in (True, False):
                with unread_pipe() as out:
                    left = self.run(*words, stdout=out, restore_signals=restored)
                yield 'an out that nobody reads is an output fault: %s' % ' '.join(words), self.wrong(OUTPUT_FAULT, left)
        with unread_pipe() as out:
            left = self.run('build', '-o', '/dev/stdout', 'f.sa', stdout=out)
        yield 'a module that nobody reads is a store fault', self.wrong(STORE_FAULT, left)
        with subprocess.Popen([self.program, 'run', 'endless.sa'], cwd=self.folder, stdin=subprocess.DEVNULL,
                              stdout=subprocess.PIPE, stderr=subprocess.PIPE) as endless:
            front = endless.stdout.read(20)
            endless.stdout.close()
            left = Left(front, endless.stderr.read(), endless.wait(report.SECONDS))
        wanted = Left(b'and so on\n' * 2, OUTPUT_FAULT.lines, OUTPUT_FAULT.status)
        yield 'an endless output ends where its reader goes', self.wrong(wanted, left)

    def err(self):
        """Err that nobody reads, that is closed or full: what the program answers stands."""
        for words, output, status in ((('run', 'fault.sa'), b'a', 121), (('check', 'unknown.sa'), b'', 120),
                                      (('run', '--fuel', '0', 'f.sa'), b'', 122), (('run', 'g.sa'), b'', 123),
                                      (('walk',), b'', 124), (('exec', 'f.sa'), b'', 126),
                                      (('run', '--stats', 'f.sa'), b'Hello\n', 0)):
            wanted = Left(output, b'', status)
            with unread_pipe() as err, open('/dev/full', 'wb') as full:
                yield 'nobody reads err: %s' % ' '.join(words), self.wrong(wanted, self.run(*words, stderr=err))
                yield 'err is full: %s' % ' '.join(words), self.wrong(wanted, self.run(*words, stderr=full))
            yield 'err is closed: %s' % ' '.join(words), self.wrong(wanted, self.shell('exec "$@" 2>&-', *words))
        left = self.shell('exec "$@" <&- >&- 2>&-', 'build', '-o', 'm', 'f.sa')
        yield 'a module is whole where all streams are closed', self.wrong(Left(), left, 'm', self.module)
        left = self.shell('exec "$@" <&- >&- 2>&-', 'run', 'fault.sa')
        yield 'where all streams are closed the first fault counts', self.wrong(Left(status=123), left)

    def inputs(self):
        """Inputs that can't be read, and such that end."""
        with open(self.path('written-only'), 'wb') as given:
            yield 'an input for writing is an input fault', self.wrong(INPUT_FAULT, self.run('run', 'asks.sa', stdin=given))
        folder = os.open(self.folder, os.O_RDONLY)
        yield 'a folder as the input is an input fault', self.wrong(INPUT_FAULT, self.run('run', 'asks.sa', stdin=folder))
        os.close(folder)
        yield 'a closed input is an input fault', self.wrong(INPUT_FAULT, self.shell('exec "$@" <&-', 'run', 'asks.sa'))
        reading, writing = os.pipe()
        os.set_blocking(reading, False)
        left = self.run('run', 'asks.sa', stdin=reading)
        yield 'an input that won\'t wait and has nothing yet is an input fault', self.wrong(INPUT_FAULT, left)
        os.close(reading)
        os.close(writing)
        left = self.run('run', 'asks.sa', input=bytes(range(256)))
        yield 'an input has any bytes', self.wrong(Left(b'q' + bytes(range(256)) + b'.'), left)


PARTS = (Host.no_files, Host.endless_files, Host.names, Host.between_reads, Host.places, Host.limits, Host.disks, Host.rights,
         Host.unread, Host.err, Host.inputs)


def try_all(program, told, word=''):
    """Tries what has a name that holds the word."""
    told.part('a hostile host', 0)
    with report.folder_with(SOURCES) as folder:
        host = Host(program, folder, told)
        for name, wrong in (tried for part in PARTS for tried in part(host)):
            if word in name:
                told.count(name, wrong)


if __name__ == '__main__':
    sys.exit(report.of_script(__doc__, try_all))
