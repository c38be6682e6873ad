#!/usr/bin/env python3
"""c_host.py PROGRAM [--only WORD]

Tries the host of C, hosts/c, where it is easily wrong: modules of other compilers that lack a result of `main` or an import, modules that
may not be run, limits, signals, terminals, and its library with many runs at once. What is wanted of a module is what `PROGRAM exec`
leaves, and the page docs/WEBASSEMBLY.md.

--only takes the tries whose names hold a word. Where a tool is missing, that is told."""
import contextlib
import functools
import os
import pty
import select
import signal
import subprocess
import sys
import time
import tty

import handmade
import hosts
import node_host
import report
from binary import I32, counted, func_type, i32_const, indexed, limits
from report import Left

HERE = os.path.dirname(os.path.abspath(__file__))
QUICK = {**os.environ, 'CFLAGS': '-O1'}
PRINTS = b'class MAIN is main is loop 3000.times!; #OUT + "a"; end; end; end;'


def of_one_import(body=b'', name=b'put', ty=((I32,), ())):
    """A module that imports one function, and whose main has no result."""
    module = handmade.bare(types=[func_type([], []), func_type(*ty)])
    module.import_func(name, 1)
    module.codes, module.funcs = [], []
    module.func(0, body)
    module.exports = [counted(b'main') + b'\0\1']
    return module.spelled()


def modules():
    """Modules that `exec` runs, or refuses by a line that `build` puts too: the name, and the bytes."""
    yield 'a main without a result', node_host.of_types()
    yield 'a main without a result and put alone', of_one_import(i32_const(65) + indexed(0x10, 0))
    yield 'a module without imports', handmade.SMALLEST
    yield 'get alone', of_one_import(indexed(0x10, 0) + b'\x1a', b'get', ((), (I32,)))
    yield 'stop alone', of_one_import(i32_const(3) + i32_const(4) + indexed(0x10, 0), b'stop', ((I32, I32), ()))
    yield 'a trap', node_host.of_types(body=b'\x00')
    yield 'an access past the end', handmade.program(i32_const(-1) + b'\x28\2\x04\x1a').spelled()
    started = handmade.program()
    started.func(3, handmade.put(66))
    started.start = handmade.MAIN + 1
    yield 'a start function that puts', started.spelled()


def refused():
    """Modules that `exec` doesn't run: the name, and the bytes."""
    yield 'put of an i64', dict(node_host.foreign())['put of an i64']
    yield 'main with an argument', dict(node_host.foreign())['main with an argument']
    yield 'no module', b'no module'
    yield 'a segment that doesn\'t fit', handmade.bare(memories=[limits(1)], data=[
        b'\0' + i32_const(65536) + b'\x0b' + counted(b'a')]).spelled()
    yield 'a float', handmade.program(b'\x43\0\0\0\0\x1a').spelled()


@contextlib.contextmanager
def native(program, source=None, module=None):
    """A folder with a native program `native` of a source or a module, and with the module as `m.wasm`."""
    with report.folder_with({'m.sa': source} if source else {'m.wasm': module}) as folder:
        if source:
            report.run([program, 'build', '-o', 'm.wasm', 'm.sa'], folder)
        made = report.run([hosts.BUILD, '-o', 'native', 'm.wasm'], folder, env=QUICK)
        if made != Left():
            raise AssertionError('build left %r' % made)
        yield folder


def run(folder, *words, **how):
    """What the native program leaves, which is called by the name of its module."""
    return report.run(['m.wasm', *words], folder, executable=os.path.join(folder, 'native'), **how)


def same_as_exec(program, module):
    """Where the native program leaves something else than `exec`, or None."""
    with native(program, module=module) as folder:
        return report.difference(report.run([program, 'exec', 'm.wasm'], folder), run(folder))


def is_refused(program, module):
    """That `build` answers a module which may not be run by the line and the status of `exec`."""
    with report.folder_with({'m.wasm': module}) as folder:
        wanted = report.run([program, 'exec', 'm.wasm'], folder)
        left = report.run([hosts.BUILD, '-o', 'native', 'm.wasm'], folder, env=QUICK)
        return report.difference(Left(b'', b'build: ' + wanted.lines, wanted.status), left)


def limited(program):
    """That the options end a run that passes them, and that words which are none are told."""
    with native(program, PRINTS) as folder:
        usage = Left(lines=b'usage: m.wasm [--seconds N] [--memory MIB] [--output KIB]\n', status=124)
        tries = [(['--output', '2'], Left(b'a' * 2048, b'output spent\n', 122)), (['--output', '3'], Left(b'a' * 3000)),
                 (['--memory', '1'], Left(lines=b'out of memory\n', status=125)), (['--memory', '100'], Left(b'a' * 3000)),
                 (['--seconds', '0'], usage), (['--seconds'], usage), (['a'], usage)]
        return next(('%s: %s' % (words, wrong) for words, wanted in tries if (wrong := report.difference(wanted, run(folder, *words)))), None)


def grows_as_far(program):
    """That a memory grows as far as with `exec --pages`."""
    grows = b''.join(i32_const(1) + b'\x40\0' + i32_const(65) + b'\x6a' + indexed(0x10, 0) for _ in range(40))
    module = handmade.program(grows, memory=False)
    module.memories = [limits(1)]
    with native(program, module=module.spelled()) as folder:
        return report.difference(report.run([program, 'exec', '--pages', '16', 'm.wasm'], folder), run(folder, '--memory', '1'))


def ends(program):
    """That what is held is written at the end of the time, at each signal, and where the processor's time is spent."""
    with native(program, node_host.LOOP) as folder:
        late = run(folder, '--seconds', '3')
        if wrong := report.difference(Left(b'start\n', b'time spent\n', 122), late):
            return wrong
        spent = report.run(['sh', '-c', 'ulimit -t 2; exec ./native'], folder)
        if wrong := report.difference(Left(b'start\n', b'', -signal.SIGXCPU), spent):
            return 'ulimit -t: %s' % wrong
        for number in (signal.SIGINT, signal.SIGTERM, signal.SIGHUP):
            with subprocess.Popen(['./native'], cwd=folder, stdout=subprocess.PIPE, stderr=subprocess.PIPE) as running:
                while node_host.cpu_of(running.pid) < 0.3 and running.poll() is None:
                    time.sleep(0.05)
                running.send_signal(number)
                output, lines = running.communicate(timeout=report.SECONDS)
            if wrong := report.difference(Left(b'start\n', b'', -number), Left(output, lines, running.returncode)):
                return '%s: %s' % (number.name, wrong)
        return None


def streams(program):
    """That a terminal shows the lines of a program that never ends, and that a file which may not grow is an output fault."""
    with native(program, node_host.LOOP) as folder:
        reader, terminal = pty.openpty()
        tty.setraw(terminal)
        shown, late = b'', time.monotonic() + node_host.SHOWING
        with subprocess.Popen(['./native'], cwd=folder, stdin=subprocess.DEVNULL, stdout=terminal) as running:
            while len(shown) < 6 and select.select([reader], [], [], max(late - time.monotonic(), 0))[0]:
                shown += os.read(reader, 6)
            running.kill()
        os.close(terminal)
        os.close(reader)
        if shown != b'start\n':
            return 'the terminal shows %r' % shown
    with native(program, PRINTS) as folder:
        left = report.run(['sh', '-c', 'ulimit -f 1; exec ./native >out'], folder)
        return report.difference(Left(lines=b'output fault\n', status=123), left)


def library_differs(program):
    """What is wrong with many runs at once of two modules by the library, or None."""
    files = {'copies.sa': node_host.COPY, 'divides.sa': node_host.FAULT}
    with report.folder_with(files) as folder:
        for name in ('copies', 'divides'):
            report.run([program, 'build', '--room', '64', '-o', name + '.wasm', name + '.sa'], folder)
            made = report.run([hosts.BUILD, '--library', name, '-o', 'made', name + '.wasm'], folder, env=QUICK)
            if made != Left():
                return 'build left %r' % made
        linked = report.run([os.environ.get('CC', 'cc'), '-O1', '-Imade', '-o', 'many', os.path.join(HERE, 'c_host.c'), 'made/copies.o',
                             'made/divides.o', 'made/host.o', '-lm', '-lpthread'], folder)
        return report.difference(Left(), linked) or report.difference(Left(b'all right\n'), report.run(['./many'], folder))


TRIES = [
    *(('%s leaves what exec leaves' % name, functools.partial(same_as_exec, module=module)) for name, module in modules()),
    *(('%s isn\'t built' % name, functools.partial(is_refused, module=module)) for name, module in refused()),
    ('the options end a run that passes them', limited), ('a memory grows as far as with --pages', grows_as_far),
    ('what is held comes out at each end', ends), ('a terminal and a file that may not grow', streams),
    ('many runs at once by the library', library_differs),
]


def outcome(program, one):
    try:
        return one[1](program)
    except AssertionError as error:
        return str(error)


def try_all(program, told, word=''):
    """Tries what has a name that holds the word."""
    if not hosts.has_c():
        return told.lacks('wasm2c of wabt %s or a C compiler' % hosts.WABT, 'the host of C was not tried')
    chosen = [one for one in TRIES if word in one[0]]
    told.part('the host of C', len(chosen))
    for (name, _), wrong in zip(chosen, report.side_by_side(functools.partial(outcome, program), chosen)):
        told.count(name, wrong)
    return None


if __name__ == '__main__':
    sys.exit(report.of_script(__doc__, try_all))
