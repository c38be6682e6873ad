#!/usr/bin/env python3
"""sandbox.py PROGRAM [--only WORD]

Tries what docs/SANDBOX.md promises builders of sandboxes, with programs and modules that are made to break it:

- of the modules that PROGRAM builds, in V8 (node): what they import and export, that nothing runs before `main`, that the memory
  never grows, what `stop` tells and that nothing comes behind it, that faults of room and depth can't be caught, that accesses stay
  in their objects, and that instances share nothing;
- of PROGRAM: that fuel ends every run, and that modules of others get no further than the table of answers says;
- of the host of Node, hosts/node: the same of modules of others.

Where node is missing it is named, and what needs it is left out. --only takes the tries whose names hold a word."""
import dataclasses
import functools
import os
import sys

import handmade
import judges
import programs
import report
from binary import I32, counted, i32_const, indexed, limits, unsigned
from handmade import bare, program, put
from hosts import RUN_JS
from reader import Reader
from report import Left

STACK = programs.STACK
IMPORTS = ['env put function', 'env get function', 'env stop function']
EXPORTS = ['main function', 'memory memory']
GROW = 0x40
STEP = 6            # one in so many programs of the table is built
END = -1            # what `get` gives at the end of the input


@dataclasses.dataclass
class Hostile:
    """A program that is made to break a promise: its name, its source, what V8 has to observe, the room, and the task."""
    name: str
    source: str
    wanted: dict
    room: int = 64
    task: dict = dataclasses.field(default_factory=dict)


def main_of(statements, features='', classes=''):
    """A source whose `main` has these statements."""
    return 'class MAIN is %s main is %s end; end; %s' % (features, statements, classes)


def stopped(kind, output=b''):
    """What is observed of a run that puts this out and stops with a fault. The site is any."""
    return {'ends': ['stop'], 'output': output, 'stops': [programs.KINDS.index(kind) + 1]}


def done(output, status='0'):
    """What is observed of a run that comes to its end. A `main` without a result gives none, or 0."""
    return {'ends': ['done %s' % status], 'output': output, 'stops': []}


# ---- programs

# A hundred instances live in each call, so that their number is passed long before the depth.
FRAMES = 'f(n:INT) is loop %s f(n + 1); end; end; ' % ('9.times!; ' * 101)
SWALLOW = 'loop protect x := 1 / 0; else end; end;'
DEEP = 'f(n:INT):INT is protect return f(n + 1) + 1; else end; return 0; end;'


def faults():
    """A program for each kind of fault: what `stop` tells is its place in the table of the page."""
    for kind, statements in (
            ('overflow', 'x ::= 2147483647; x := x + 1;'), ('division by zero', 'x ::= 0; x := 1 % x;'),
            ('void', 'a:ARRAY{INT}; x ::= a[0];'), ('index', 'a ::= #ARRAY{INT}(3); a[3] := 1;'),
            ('no branch', 'x ::= 3; case x when 4 then end;'), ('no return', 'x ::= f;'), ('assert', 'x ::= 1; assert x = 2;'),
            ('uncaught', 'raise "a";'), ('no room', 'a ::= #ARRAY{INT}(8192);'), ('too deep', 'x ::= g;'), ('frames', 'f(0);')):
        yield Hostile('stop tells the place of the fault: %s' % kind, main_of(
            statements, 'f:INT is end; g:INT is return g; end; ' + FRAMES), stopped(kind))


def uncaught():
    """Programs that catch all that they can."""
    yield Hostile('a program that catches each of its faults comes to the end of its room', main_of('x:INT; ' + SWALLOW), {
        'ends': ['stop'], 'output': b'', 'stops': [2]})
    yield Hostile('no room isn\'t caught', main_of('protect a ::= #ARRAY{INT}(9000); else #OUT + "c"; end;'), stopped('no room'))
    yield Hostile('too many calls aren\'t caught', main_of('#OUT + f(0);', DEEP), stopped('too deep'))
    yield Hostile('too many instances aren\'t caught', main_of('protect f(0); else #OUT + "c"; end;', FRAMES), stopped('frames'))


def accesses():
    """Places, counts and sizes that reach past an object, also by way of a sum or product of 32 bits that wraps."""
    numbers = ('-1', '3', '2147483647', '(-2147483647 - 1)', '536870911', '536870912', '268435456')
    for number in numbers:
        is_negative = number.startswith(('-', '('))
        yield Hostile('a read at %s' % number, main_of('a ::= #ARRAY{INT}(3); #OUT + "a"; #OUT + a[%s];' % number), stopped('index', b'a'))
        yield Hostile('a write at %s' % number, main_of('a ::= #ARRAY{INT}(3); #OUT + "a"; a[%s] := 7;' % number), stopped('index', b'a'))
        yield Hostile('a byte at %s' % number, main_of('#OUT + "abc"[%s];' % number), stopped('index'))
        yield Hostile('a part of a text from %s on' % number, main_of('#OUT + "ab".substring(%s, 1);' % number), stopped('index'))
        if number != '3':
            yield Hostile('an array of %s elements' % number, main_of('a ::= #ARRAY{INT}(%s);' % number),
                          stopped('index' if is_negative else 'no room'))
        yield Hostile('a part of %s bytes' % number, main_of('#OUT + "ab".substring(0, %s);' % number), stopped('index'))
        yield Hostile('a text of %s bytes of an array' % number, main_of("#OUT + STR::of(|'a', 'b'|, %s);" % number), stopped('index'))
        yield Hostile('an object with a part of %s elements' % number, main_of('x ::= #C(%s); #OUT + x.asize;' % number, '', (
            'class C is include AREF{INT}; attr a, b:INT; create(n:INT):SAME is return new(n); end; end;')),
            done(b'3') if number == '3' else stopped('index' if is_negative else 'no room'))


def behaviours():
    """What a module does to its host in other ways."""
    text = '0123456789abcdef' * 4
    yield Hostile('the memory is the same when all its room is used', main_of(
        'l ::= #FLIST{STR}; x ::= "%s"; loop l.push(x + x); end;' % text), stopped('no room'), 1024)
    yield Hostile('nothing comes behind a stop that returns', main_of('#OUT + "a"; x ::= 0; loop #OUT + 1 / x; end; #OUT + "b";'), {
        'ends': ['done 0'], 'output': b'a', 'stops': [2], 'last': 'stop'}, task={'returns': True})
    yield Hostile('a stop that returns inside a deep call', main_of('#OUT + f(9000);', 'f(n:INT):INT is if n = 0 then return n / n; '
                                                                                        'end; return f(n - 1); end;'), {
        'ends': ['done 0'], 'output': b'', 'stops': [2], 'last': 'stop'}, task={'returns': True})
    yield Hostile('get is called for what is read alone', main_of('in_ ::= #IN; #OUT + in_.get_byte + in_.get_byte + in_.get_byte;'), {
        **done(b'9798-1'), 'gets': 3}, task={'input': [97, 98, END]})
    yield Hostile('a program that reads nothing calls get never', main_of('#OUT + "a";'), {**done(b'a'), 'gets': 0})
    yield Hostile('all bytes go out as they are', main_of('i ::= 0; loop while!(i < 256); #OUT + i.char; i := i + 1; end;'),
                  done(bytes(range(256))))
    yield Hostile('a result of 32 bits is given as it is', 'class MAIN is main:INT is return -1; end; end', done(b'', '-1'))


def hostile_programs():
    """All of them."""
    for some in (faults, uncaught, accesses, behaviours):
        yield from some()


def built(command, source, room):
    """The module of a source, or the text that tells why there is none."""
    with report.folder_with({'f.sa': source.encode()}) as folder:
        left = report.run([command, 'build', '-o', 'm', '--room', str(room), 'f.sa'], folder)
        if left != Left():
            return 'build left %r and status %d' % (left.lines, left.status)
        with open(os.path.join(folder, 'm'), 'rb') as file:
            return file.read()


def task_of(module, **task):
    """What sandbox.js is asked."""
    return {'module': module.hex(), 'input': [END], 'returns': False, 'runs': 1, **task}


def observed(tasks):
    """What sandbox.js observes of each task. One process is asked of a few, since V8 sets much of its addresses aside for each."""
    parts = [tasks[at:at + programs.TASKS] for at in range(0, len(tasks), programs.TASKS)]
    return [seen for part in parts for seen in judges.node('sandbox.js', part, STACK)]


def wrong_shape(seen):
    """What a module imports, exports or does before `main`, or does to its memory, that it shouldn't, or None."""
    wanted = {'imports': IMPORTS, 'exports': EXPORTS, 'early': 0, 'kept': True, 'grows': False}
    differing = ['%s: expected %s, and came %s' % (name, value, seen[name]) for name, value in wanted.items() if seen[name] != value]
    return '; '.join(differing) or None


def wrong_run(wanted, seen):
    """What a run did otherwise than it should, or None."""
    calls = seen['calls']
    found = {'ends': seen['ends'], 'output': bytes(call[1] & 255 for call in calls if call[0] == 'put'),
             'stops': [call[1] for call in calls if call[0] == 'stop'], 'last': calls[-1][0] if calls else None,
             'gets': sum(call[0] == 'get' for call in calls)}
    differing = ['%s: expected %r, and came %r' % (name, value, found[name]) for name, value in wanted.items() if found[name] != value]
    return '; '.join(differing) or None


def try_programs(command, told, word):
    """Runs the programs that are made to break a promise."""
    chosen = [one for one in hostile_programs() if word in one.name]
    made = list(report.side_by_side(functools.partial(built_of, command), chosen))
    for one, module in zip(chosen, made):
        if isinstance(module, str):
            told.count(one.name, module)
    pairs = [(one, module) for one, module in zip(chosen, made) if not isinstance(module, str)]
    for (one, _), seen in zip(pairs, observed([task_of(module, **one.task) for one, module in pairs])):
        told.count(one.name, wrong_shape(seen) or wrong_run(one.wanted, seen))


def built_of(command, one):
    return built(command, one.source, one.room)


# ---- modules of the table's programs

class Instructions(Reader):
    """A reader that notes whether any instruction lets the memory grow, whether there is a start function, and the memory."""

    def __init__(self, spelled):
        super().__init__(spelled)
        self.grows = self.starts = False
        self.memory = None

    def simple(self, opcode, labels):
        self.grows |= opcode == GROW
        super().simple(opcode, labels)

    def section(self, number):
        self.starts |= number == 8
        super().section(number)

    def limits(self):
        self.memory = super().limits()
        return self.memory


def wrong_code(module):
    """What a module's code could do that it shouldn't, or None. The limits that are read last are those of the memory."""
    found = Instructions(module)
    found.module()
    if found.grows or found.starts or found.memory[0] != found.memory[1]:
        return 'memory.grow: %s, a start function: %s, the memory %s' % (found.grows, found.starts, found.memory)
    return None


def module_of(command, one):
    """The module of a program of the table, or None where it is refused."""
    with report.folder_with(one.files) as folder:
        if report.run([command, 'build', *one.words_of_build()], folder).status:
            return None
        with open(os.path.join(folder, 'm'), 'rb') as file:
            return file.read()


def try_shapes(command, told, word):
    """Looks at what the modules of the table's programs import, export and hold. None is run."""
    chosen = [one for one in list(programs.programs(''))[::STEP] if word in one.name]
    modules = [(one, module) for one, module in zip(chosen, report.side_by_side(functools.partial(module_of, command), chosen)) if module]
    for (one, module), of_v8 in zip(modules, observed([task_of(module, runs=0) for _, module in modules])):
        told.count('the module of %s' % one.name, wrong_shape(of_v8) or wrong_code(module))


# ---- instances

COUNTS = 'class MAIN is shared n:INT; shared l:FLIST{INT}; main:INT is if void(l) then l := #; end; n := n + 1; l.push(n); ' \
         '#OUT + n; return l.size; end; end'


def try_instances(command, told, word):
    """Two instances of one module share nothing."""
    name = 'instances of one module share nothing'
    if word in name:
        module = built(command, COUNTS, 64)
        first, second = observed([task_of(module), task_of(module)])
        wanted = done(b'1', '1')
        told.count(name, wrong_run(wanted, first) or wrong_run(wanted, second))


# ---- modules of others

def foreign_modules():
    """Modules that ask for more than a host gives: the name, the bytes, and what `exec` and the host of Node leave."""
    def unlinked(number):
        return Left(lines=b'm: unlinked %d\n' % number, status=126)

    def importing(module, name, kind=b'\0\3'):
        made = program(memory=False)
        made.imports.append(counted(module) + counted(name) + kind)
        made.exports = [counted(b'main') + b'\0' + unsigned(handmade.MAIN + (kind[0] == 0))]
        return made.spelled()

    for module, name in ((b'env', b'exit'), (b'env', b'constructor'), (b'env', b'__proto__'), (b'env', b'toString'), (b'env', b'Put'),
                         (b'env', b''), (b'', b'put'), (b'wasi_snapshot_preview1', b'proc_exit'), (b'__proto__', b'put'),
                         (b'env', b'put\0')):
        yield 'a module that imports %s of %s' % (name.decode(), module.decode()), importing(module, name), unlinked(3)
    yield 'a module that imports a memory', importing(b'env', b'put', b'\2' + limits(1)), unlinked(3)
    yield 'a module that imports a table', importing(b'env', b'put', b'\1\x70' + limits(1)), unlinked(3)
    yield 'a module that imports a global', importing(b'env', b'put', b'\3' + bytes([I32, 0])), unlinked(3)
    yield 'a module without main', bare(exports=[]).spelled(), unlinked(0)
    yield 'a module whose main is its memory', bare(memories=[limits(1)], exports=[counted(b'main') + b'\2\0']).spelled(), unlinked(0)
    yield 'a module that reads past its memory', program(i32_const(-1) + b'\x28\2\x04\x1a').spelled(), Left(lines=b'm: trap\n', status=126)
    stop = put(65) + i32_const(0) + i32_const(-1) + indexed(0x10, handmade.STOP) + put(66)
    yield 'a module that stops with numbers of its own', program(stop).spelled(), Left(b'A', b'm: stop 0 at 4294967295\n', 121)
    deep = program(put(65) + indexed(0x10, handmade.MAIN))
    yield 'a module that calls itself without end', deep.spelled(), Left(b'', b'm: too deep\n', 126)


FOREVER = b'\x03\x40' + indexed(0x0c, 0) + b'\x0b'


def endless_modules():
    """Modules that don't end by themselves."""
    started = program()
    started.func(3, FOREVER)
    started.start = handmade.MAIN + 1
    asking = b'\x03\x40' + indexed(0x10, handmade.GET) + b'\x1a' + indexed(0x0c, 0) + b'\x0b'
    yield 'a main without end', program(FOREVER).spelled()
    yield 'a start function without end', started.spelled()
    yield 'a module that asks for input without end', program(asking).spelled()


def same_but_for_depth(wanted, left):
    """What differs, or None. How much was put out before a stack ends is the engine's own."""
    if b'too deep' in wanted.lines and set(left.output) <= set(b'A'):
        left = Left(wanted.output, left.lines, left.status)
    return report.difference(wanted, left)


def ways(command, words, options):
    """The ways in which a module is run, `exec` and the host of Node where that is there, each with its words."""
    yield 'exec', [command, 'exec', *words, 'm']
    if judges.has_node():
        yield 'Node', ['node', RUN_JS, *options, 'm']


def try_foreign(command, told, word):
    """Runs modules of others by `exec` and in the host of Node, and such that don't end with fuel and with a limit of time."""
    spent = {'exec': Left(lines=b'fuel spent\n', status=122), 'Node': Left(lines=b'time spent\n', status=122)}
    tries = [(name, module, {'exec': left, 'Node': left}, [], []) for name, module, left in foreign_modules()]
    tries += [(name, module, spent, ['--fuel', '1000000'], ['--seconds', '1']) for name, module in endless_modules()]
    for name, module, wanted, words, options in tries:
        for way, called in ways(command, words, options) if word in name else ():
            with report.folder_with({'m': module}) as folder:
                left = report.run(called, folder, judges.BUSY * judges.SECONDS)
            told.count('%s, %s' % (name, way), same_but_for_depth(wanted[way], left))


def try_all(command, told, word=''):
    """Tries what has a name that holds the word."""
    told.part('what a sandbox is promised', 0)
    if judges.has_node():
        try_programs(command, told, word)
        try_shapes(command, told, word)
        try_instances(command, told, word)
    else:
        told.lacks('node', 'no module was run against its host')
    try_foreign(command, told, word)


if __name__ == '__main__':
    sys.exit(report.of_script(__doc__, try_all))
