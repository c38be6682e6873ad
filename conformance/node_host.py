#!/usr/bin/env python3
"""node_host.py PROGRAM [--only WORD]

Tries the host of Node, hosts/node, where it is easily wrong:

- modules whose imports or `main` have other types than the host's, with names that look like lines on err: they are answered as by
  `PROGRAM exec`, and nothing of theirs is on err;
- signals, terminals, inputs that can't be read, and files of sites that are none;
- the library sather-host.mjs: several runs at once, each with its own input and limits.

--only takes the tries whose names hold a word. Where node is missing, that is told."""
import functools
import json
import os
import pty
import re
import select
import signal
import subprocess
import sys
import time
import tty

import handmade
import judges
import report
from binary import I32, I64, Module, counted, func_type, i32_const, i64_const, indexed, limits, section, vector
from hosts import RUN_JS
from report import Left

HERE = os.path.dirname(os.path.abspath(__file__))
LIBRARY = os.path.join(os.path.dirname(RUN_JS), 'sather-host.mjs')
LINES = b'\nm: stop 2 at 82\nfuel spent\n'      # what a module would like to have on err
LOOP = b'class MAIN is main is #OUT + "start\\n"; i ::= 0; loop i := (i + 1) % 1000; end; end; end;'
COPY = b'class MAIN is main is loop b ::= #IN.get_byte; while!(b >= 0); #OUT + b.char; end; end; end;'
# Fills what is written together, and holds a few bytes more.
HOLDS = b'class MAIN is main is loop 65536.times!; #OUT + "a"; end; #OUT + "held"; i ::= 0; loop i := (i + 1) % 1000; end; end; end;'
BUFFER = 65536
FAULT = b'class MAIN is main is #OUT + "before"; #OUT + 1 / 0; end; end;'
SHOWING = 60        # the most seconds that a start may take on a busy machine
CALL, DROP = 0x10, b'\x1a'


def of_types(put=((I32,), ()), get=((), (I32,)), stop=((I32, I32), ()), main=((), ()), body=b'', exported=3):
    """A module with these types of its imports and of `main`, and a name of its function that looks like lines on err."""
    module = Module()
    module.types = [func_type(*one) for one in (put, get, stop, main)]
    for number, name in enumerate((b'put', b'get', b'stop')):
        module.import_func(name, number)
    module.func(3, body)
    module.export_func(b'main', exported)
    names = section(0, counted(b'name') + section(1, vector([b'\3' + counted(LINES)])))
    return module.spelled() + names


def foreign():
    """Modules that aren't linked: the name, and the bytes."""
    yield 'put of an i64', of_types(put=((I64,), ()), body=i64_const(65) + indexed(CALL, 0))
    yield 'put that gives an i32', of_types(put=((I32,), (I32,)), body=i32_const(65) + indexed(CALL, 0) + DROP)
    yield 'get that gives an i64', of_types(get=((), (I64,)), body=indexed(CALL, 1) + DROP)
    yield 'get without a result', of_types(get=((), ()), body=indexed(CALL, 1))
    yield 'stop of two i64', of_types(stop=((I64, I64), ()), body=(i64_const(1) * 2) + indexed(CALL, 2))
    yield 'stop without arguments', of_types(stop=((), ()), body=indexed(CALL, 2))
    yield 'main with an argument', of_types(main=((I32,), ()))
    yield 'main that gives an i64', of_types(main=((), (I64,)), body=i64_const(7))
    yield 'main that is the imported put', of_types(exported=0)
    yield 'main that is the imported get', of_types(exported=1)


def linked():
    """Modules that are linked: the name, and the bytes."""
    yield 'a module that traps has no name on err', of_types(body=b'\x00')
    yield 'a module that calls itself has no name on err', of_types(body=indexed(CALL, 3))
    yield 'put is called with all 32 bits', of_types(body=i32_const(-191) + indexed(CALL, 0))
    yield 'an i32 of main', of_types(main=((), (I32,)), body=i32_const(-1))
    twice = handmade.bare(types=[func_type([], []), func_type([I32], [])])
    for _ in range(2):
        twice.import_func(b'put', 1)
    twice.exports = [counted(b'main') + b'\0\2']
    yield 'an import that comes twice', twice.spelled()


def same_as_exec(program, module):
    """Where the host of Node, with a small stack, leaves something else than `exec`, or None."""
    with report.folder_with({'m': module}) as folder:
        wanted, left = report.run([program, 'exec', 'm'], folder), report.run(['node', RUN_JS, '--stack', '4', 'm'], folder)
        return report.difference(wanted, left)


def memory_is_bounded(program):
    """That a module with a memory that grows gets as many pages as with `exec --pages`, also where its own maximum is less."""
    grows = b''.join(i32_const(1) + b'\x40\0' + i32_const(65) + b'\x6a' + indexed(CALL, 0) for _ in range(40))
    for most, pages in ((None, 16), (20, 16), (3, 16), (None, 32)):
        module = handmade.program(grows, memory=False)
        module.memories = [limits(1, most)]
        with report.folder_with({'m': module.spelled()}) as folder:
            wanted = report.run([program, 'exec', '--pages', str(pages), 'm'], folder)
            left = report.run(['node', RUN_JS, '--memory', str(pages // 16), 'm'], folder)
            if wrong := report.difference(wanted, left):
                return wrong
    return None


def built(program, source, folder):
    """Makes the module m.wasm of a source."""
    with open(os.path.join(folder, 'm.sa'), 'wb') as file:
        file.write(source)
    report.run([program, 'build', '-o', 'm.wasm', 'm.sa'], folder)


def signalled(program, number):
    """That a run which a signal ends has written what it held, and ends by the signal."""
    with report.folder_with({}) as folder:
        built(program, HOLDS, folder)
        with subprocess.Popen(['node', RUN_JS, 'm.wasm'], cwd=folder, stdout=subprocess.PIPE, stderr=subprocess.PIPE) as run:
            first = run.stdout.read(BUFFER)
            # What is held was put out when the program has run on for a while.
            late = cpu_of(run.pid) + 0.5
            while cpu_of(run.pid) < late and run.poll() is None:
                time.sleep(0.1)
            run.send_signal(number)
            output, lines = run.communicate(timeout=report.SECONDS)
        return report.difference(Left(b'a' * BUFFER + b'held', b'', -number), Left(first + output, lines, run.returncode))


def cpu_of(process):
    """The seconds of a processor that a process has taken, in the program and in the system."""
    with open('/proc/%d/stat' % process, encoding='utf-8') as file:
        return sum(map(int, file.read().rpartition(')')[2].split()[11:13])) / os.sysconf('SC_CLK_TCK')


def shown_on_terminal(program):
    """That a terminal shows the lines of a module that never ends."""
    with report.folder_with({}) as folder:
        built(program, LOOP, folder)
        reader, terminal = pty.openpty()
        tty.setraw(terminal)
        shown, late = b'', time.monotonic() + SHOWING
        with subprocess.Popen(['node', RUN_JS, 'm.wasm'], cwd=folder, stdin=subprocess.DEVNULL, stdout=terminal) as run:
            while len(shown) < 6 and select.select([reader], [], [], max(late - time.monotonic(), 0))[0]:
                shown += os.read(reader, 6)
            run.kill()
        os.close(terminal)
        os.close(reader)
        return None if shown == b'start\n' else 'the terminal shows %r' % shown


def folder_is_no_input(program):
    """That a folder as the input is an input fault, as in `exec`."""
    with report.folder_with({}) as folder:
        built(program, COPY, folder)
        left = report.run(['sh', '-c', 'exec node "$0" m.wasm <.', RUN_JS], folder)
        return report.difference(Left(lines=b'input fault\n', status=123), left)


def sites_are_read(program):
    """That a file of sites which holds no sites is a store fault before anything runs."""
    for text in (b'null', b'{}', b'[null]', b'[{"file": 1, "line": 2}]', b'1'):
        with report.folder_with({'n.json': text}) as folder:
            built(program, FAULT, folder)
            left = report.run(['node', RUN_JS, '--sites', 'n.json', 'm.wasm'], folder)
            if wrong := report.difference(Left(lines=b'store fault\n', status=123), left):
                return '%s: %s' % (text.decode(), wrong)
    return None


def library_differs(program):
    """What is wrong with several runs at once by the library, or None."""
    with report.folder_with({}) as folder:
        for name, source in (('copy', COPY), ('loop', LOOP)):
            built(program, source, folder)
            os.rename(os.path.join(folder, 'm.wasm'), os.path.join(folder, name))
        left = report.run(['node', os.path.join(HERE, 'node_host.js'), LIBRARY, 'copy', 'loop'], folder)
    if left.status != 0:
        return 'the script left %r' % left.lines
    found = json.loads(left.output)

    def run(output, line='', status=0):
        return {'status': status, 'line': line, 'output': output}
    wanted = {
        'inputs': [run(text) for text in ('one', 'two', 'three', 'four', 'five', 'six')], 'pieces': run(''), 'written': 'a text',
        'late': 'time spent', 'spent': run('abcd', 'output spent', 122), 'small': run('', 'out of memory', 125),
        'full': run('', 'output fault', 123), 'unread': run('', 'input fault', 123), 'line': 'start\n',
        'stopped': run('start\n', 'stopped', 122), 'waiting': 'stopped', 'faults': 12, 'sites': [True, False, False],
    }
    return '; '.join('%s: expected %r, and came %r' % (name, it, found[name]) for name, it in wanted.items() if found[name] != it) or None


def types_differ(_):
    """Where sather-host.d.mts declares other values than sather-host.mjs exports, or None."""
    def names(file, words):
        with open(file, encoding='utf-8') as text:
            return sorted(re.findall(r'^export (?:%s) (\w+)' % words, text.read(), re.M))
    values = names(LIBRARY, 'const|function|class'), names(LIBRARY.replace('.mjs', '.d.mts'), 'const|function|class')
    return None if values[0] == values[1] else 'the library exports %s, and its types have %s' % values


TRIES = [
    *(('a module with %s is answered as by exec' % name, functools.partial(same_as_exec, module=module)) for name, module in foreign()),
    *((name, functools.partial(same_as_exec, module=module)) for name, module in linked()),
    ('a memory grows as far as with --pages', memory_is_bounded),
    *(('what is held comes out at SIG%s' % name, functools.partial(signalled, number=getattr(signal, 'SIG' + name)))
      for name in ('INT', 'TERM', 'HUP')),
    ('a terminal shows the lines of a module that never ends', shown_on_terminal),
    ('a folder is no input', folder_is_no_input),
    ('a file of sites that holds none is a store fault', sites_are_read),
    ('several runs at once by the library', library_differs),
    ('the types of the library have what it exports', types_differ),
]


def try_all(program, told, word=''):
    """Tries what has a name that holds the word."""
    if not judges.has_node():
        return told.lacks('node', 'the host of Node was not tried')
    chosen = [(name, wrong) for name, wrong in TRIES if word in name]
    told.part('the host of Node', len(chosen))
    for (name, _), wrong in zip(chosen, report.side_by_side(functools.partial(outcome, program), chosen)):
        told.count(name, wrong)
    return None


def outcome(program, one):
    return one[1](program)


if __name__ == '__main__':
    sys.exit(report.of_script(__doc__, try_all))
