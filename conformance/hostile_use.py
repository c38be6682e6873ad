#!/usr/bin/env python3
"""hostile_use.py PROGRAM [--only WORD]

Uses PROGRAM as nobody should: modules that are built to take much or to be misread, streams that are closed or full, little memory, names
that are no files, builds that are ended in the middle or side by side, and hosts in V8 that give what they shouldn't or leave in the middle.
What is wanted comes from the tables of docs/WEBASSEMBLY.md and docs/LANGUAGE.md. What installers, the page's server and the hosts of hosts/
meet is tried by installing.py, served.py, node_host.py and c_host.py.

--only takes the tries whose names hold a word. Where node is missing, that is told."""
import contextlib
import functools
import json
import os
import subprocess
import sys
import threading

import handmade
import judges
import report
from binary import counted, i32_const, indexed, limits, section, unsigned
from report import Left

HELLO = b'class MAIN is main is #OUT + "Hello\\n"; end; end;'
COPY = b'class MAIN is main is loop b ::= #IN.get_byte; while!(b >= 0); #OUT + b.char; end; end; end;'
COUNTS = b'class MAIN is shared n:INT; main:INT is n := n + 1; #OUT + n; return n; end; end;'
FILES = {'f.sa': HELLO, 'c.sa': COPY, 'n.sa': COUNTS}
STORE_FAULT = Left(lines=b'store fault\n', status=123)
OUTPUT_FAULT = Left(lines=b'output fault\n', status=123)
BUILDS = 20         # of each of two programs onto one file, side by side
LITTLE = (1000, 2000, 4000, 8000, 16000, 32000, 64000)      # KiB of addresses
# What calls a module otherwise than docs/WEBASSEMBLY.md has it.
SCRIPT = b'''const fs = require('fs');
const bytes = fs.readFileSync(process.argv[2]);
class Left extends Error {}
function instance(env) {
  const put = [];
  const given = {put: (byte) => { put.push(byte); }, get: () => -1, stop: (code) => { throw new Left(`stop ${code}`); }, ...env};
  return {put, exports: new WebAssembly.Instance(new WebAssembly.Module(bytes), {env: given}).exports};
}
function called(main) {
  try {
    return main() ?? 0;
  } catch (error) {
    return error instanceof Left ? error.message : `${error}`;
  }
}
const text = (put) => Buffer.from(put).toString();
const twice = instance({});
const again = [called(twice.exports.main), called(twice.exports.main), text(twice.put)];
let leaves = true;
const thrown = instance({put: (byte) => { if (leaves) throw new Left('put'); thrown.put.push(byte); }});
const left = [called(thrown.exports.main)];
leaves = false;
left.push(called(thrown.exports.main), text(thrown.put));
const many = Array.from({length: 200}, () => instance({}));
console.log(JSON.stringify({again, left, many: many.reduce((sum, one) => sum + called(one.exports.main), 0)}));
'''


def exec_of(program, module, *words):
    """What `exec` leaves of a module."""
    with report.folder_with({'m': module.spelled() if hasattr(module, 'spelled') else module}) as folder:
        return report.run([program, 'exec', *words, 'm'], folder)


def started(body):
    """A module with a start function of this body, and a `main` that puts B."""
    module = handmade.program(handmade.put(66))
    module.func(3, body)
    module.start = handmade.MAIN + 1
    return module


def named(name):
    """A module that exports its `main` by another name too."""
    module = handmade.bare()
    module.exports.append(counted(name) + b'\0\0')
    return module


def modules():
    """Modules that are built to take much or to be misread: the name, the module, the options, and what is left."""
    loop = b'\x03\x40' + indexed(0x0c, 0) + b'\x0b'
    targets = 300_000
    table = b'\x02\x40' + i32_const(7) + b'\x0e' + unsigned(targets) + b'\0' * (targets + 1) + b'\x0b'
    yield 'a start function that puts', started(handmade.put(65)), [], Left(b'AB')
    yield 'a start function without end', started(loop), ['--fuel', '1000'], Left(lines=b'fuel spent\n', status=122)
    yield 'a start function that traps', started(handmade.put(65) + b'\0'), [], Left(b'A', b'm: trap\n', 126)
    yield 'a table of 4,294,967,295 entries', handmade.bare(tables=[b'\x70' + limits(2 ** 32 - 1)]), [], Left()
    yield 'a segment past the memory', handmade.bare(memories=[limits(1)], data=[b'\0' + i32_const(-1) + b'\x0b' + counted(b'a')]), [], \
        Left(lines=b'm: segment\n', status=126)
    yield 'a segment of no bytes at the end', handmade.bare(memories=[limits(1)], data=[b'\0' + i32_const(65536) + b'\x0b' + counted(b'')]), \
        [], Left()
    for name in (b'\nm: stop 2 at 82\n', b'\x1b[31m', b'a\0b', '\u202e'.encode(), b''):
        yield 'an export with the name %r' % name, named(name), [], Left()
    yield 'a branch of 300,000 targets', handmade.program(table), [], Left()
    yield '100,000 functions', many_functions(100_000), [], Left()
    yield 'a custom section of 20 million bytes', handmade.SMALLEST + section(0, counted(b'x') + b'\0' * 20_000_000), [], Left()
    yield 'a memory past the limit', handmade.bare(memories=[limits(17)]), ['--pages', '16'], Left(lines=b'out of memory\n', status=125)
    yield 'calls without end', handmade.program(indexed(0x10, handmade.MAIN)), [], Left(lines=b'm: too deep\n', status=126)


def many_functions(count):
    """A module of so many functions that do nothing."""
    module = handmade.bare()
    module.funcs, module.codes = module.funcs * count, module.codes * count
    return module


def streams(program):
    """Closed and full streams: of each command line what is left, by the shell, and what should be."""
    with report.folder_with(FILES) as folder:
        for source, name in (('f.sa', 'm'), ('c.sa', 'c')):
            report.run([program, 'build', '-o', name, source], folder)
        for words in ('run f.sa', 'exec m', 'check f.sa', 'listing m', 'lib fmap', 'help', 'version', 'explain E33'):
            for stream in ('>&-', '>/dev/full'):
                line = 'exec "$0" %s %s' % (words, stream)
                yield line, report.run(['sh', '-c', line, program], folder), OUTPUT_FAULT
        for line, wanted in (('run f.sa 2>&-', Left(b'Hello\n')), ('run f.sa 2>/dev/full', Left(b'Hello\n')),
                             ('exec missing 2>/dev/full', Left(status=123)), ('check - <&-', STORE_FAULT), ('exec c <.', Left(
                                 lines=b'input fault\n', status=123)), ('run f.sa <&- >&- 2>&-', Left(status=123))):
            yield line, report.run(['sh', '-c', 'exec "$0" ' + line, program], folder), wanted


def odd_files(program):
    """Names that are no plain files."""
    with report.folder_with(FILES) as folder:
        run = functools.partial(report.run, folder=folder)
        for name in ('.', '/proc/self/mem', 'missing', 'f.sa/'):
            yield 'run %s' % name, run([program, 'run', name]), STORE_FAULT
            yield 'exec %s' % name, run([program, 'exec', name]), STORE_FAULT
        yield 'exec /dev/null', run([program, 'exec', '/dev/null']), Left(lines=b'/dev/null: malformed\n', status=126)
        yield 'build onto a folder', run([program, 'build', '-o', '.', 'f.sa']), STORE_FAULT
        yield 'build onto no name', run([program, 'build', '-o', '', 'f.sa']), STORE_FAULT


def has_little_memory(program, most):
    """Whether a run with so many KiB of addresses ends as it does, as out of memory, or by the system before it begins."""
    with report.folder_with(FILES) as folder:
        left = report.run(['sh', '-c', 'ulimit -v %d; exec "$0" run f.sa' % most, program], folder)
    if left in (Left(b'Hello\n'), Left(lines=b'out of memory\n', status=125)):
        return None
    # The loader or the kernel has no place for the program.
    is_systems = left.output == b'' and left.status in (126, 127, -9, -11, 137, 139) and b'fault' not in left.lines
    return None if is_systems else 'came %r' % left


def builds_are_whole(program):
    """That of two programs which are built onto one name side by side, and ended in the middle, a whole module comes in the end."""
    with report.folder_with(FILES) as folder:
        wanted = set()
        for source in ('f.sa', 'c.sa'):
            report.run([program, 'build', '-o', 'one', source], folder)
            with open(os.path.join(folder, 'one'), 'rb') as file:
                wanted.add(file.read())

        def build(source):
            for at in range(BUILDS):
                with subprocess.Popen([program, 'build', '-o', 'm', source], cwd=folder) as building:
                    if at % 4 == 3:
                        building.kill()
        both = [threading.Thread(target=build, args=(source,)) for source in ('f.sa', 'c.sa')]
        for one in both:
            one.start()
        for one in both:
            one.join()
        last = report.run([program, 'build', '-o', 'm', 'f.sa'], folder)
        with open(os.path.join(folder, 'm'), 'rb') as file:
            found = file.read()
        return report.difference(Left(), last) or (None if found in wanted else 'a module of %d bytes that none of the builds writes' % len(found))


def same_module(program):
    """That a source gives one module, wherever it stands."""
    with report.folder_with({'f.sa': HELLO, 'folder/g.sa': HELLO}) as folder:
        found = set()
        for name, source, place in (('a', 'f.sa', folder), ('b', 'folder/g.sa', folder), ('../c', 'g.sa', os.path.join(folder, 'folder'))):
            report.run([program, 'build', '-o', name, source], place)
            with open(os.path.join(place, name), 'rb') as file:
                found.add(file.read())
        return None if len(found) == 1 else 'it gives %d' % len(found)


def hosts_that_leave(program):
    """What differs where a host calls `main` again, leaves `put` by an exception, or makes many instances. A second call goes on with the
    shareds that the first has left."""
    with report.folder_with({**FILES, 'script.js': SCRIPT}) as folder:
        report.run([program, 'build', '--room', '64', '-o', 'n', 'n.sa'], folder)
        left = report.run(['node', 'script.js', 'n'], folder)
        wanted = {'again': [1, 2, '12'], 'left': ['put', 2, '2'], 'many': 200}
        with contextlib.suppress(ValueError):
            return None if json.loads(left.output) == wanted else 'expected %s, and came %s' % (wanted, left.output.decode())
        return 'the script left %r' % left.lines


def try_all(program, told, word=''):
    """Tries what has a name that holds the word."""
    told.part('hostile use', 0)
    for name, module, words, wanted in modules():
        if word in name:
            told.count(name, report.difference(wanted, exec_of(program, module, *words)))
    if word in 'streams that are closed or full':
        for line, left, wanted in streams(program):
            told.count(line, report.difference(wanted, left))
    if word in 'names that are no files':
        for name, left, wanted in odd_files(program):
            told.count(name, report.difference(wanted, left))
    tries = [('%d KiB of addresses' % most, functools.partial(has_little_memory, most=most)) for most in LITTLE]
    tries += [('builds side by side', builds_are_whole), ('one source gives one module', same_module)]
    if judges.has_node():
        tries.append(('a host that leaves, or comes again', hosts_that_leave))
    else:
        told.lacks('node', 'no host was tried that leaves in the middle')
    for name, wrong in tries:
        if word in name:
            told.count(name, wrong(program))


if __name__ == '__main__':
    sys.exit(report.of_script(__doc__, try_all))
