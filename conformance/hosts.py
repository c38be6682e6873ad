#!/usr/bin/env python3
"""hosts.py PROGRAM [--only WORD]

Runs modules that `PROGRAM build` makes in the hosts of hosts/, Node and C by way of wabt's wasm2c:

- each example leaves there what `PROGRAM run` of its source leaves;
- programs that end in the ways that a program has leave there what `PROGRAM exec` of their modules leaves;
- the options of the host of Node end a run that passes them.

A tool that is missing is named, and what needs it is left out. --only takes the tries whose names hold a word."""
import contextlib
import dataclasses
import functools
import os
import shutil
import subprocess
import sys

import examples
import judges
import report
from hostile import unread_pipe
from report import Left

HOSTS = os.path.join(os.path.dirname(os.path.abspath(__file__)), '..', 'hosts')
RUN_JS = os.path.join(HOSTS, 'node', 'run.js')
BUILD = os.path.join(HOSTS, 'c', 'build')
WABT = '1.0.32'     # the version of wasm2c that hosts/c fits
TIME_SPENT = b'time spent\n'
RUNTIME = os.environ.get('WASM2C_RUNTIME', '/usr/share/wabt/wasm2c')
DEEP = b'class MAIN is f(n:INT):INT is a ::= n * 2; return f(n + 1) + a; end; main is #OUT + "a\\n"; #OUT + f(0); end; end;'
ENDLESS = b'class MAIN is main is #OUT + "a\\n"; loop end; end; end;'
PRINTS = b'class MAIN is main is loop 100000.times!; #OUT + "a"; end; end; end;'
DIVIDES = b'class MAIN is main is #OUT + "a";\n#OUT + 1 / 0; end; end;'
COPY = b'class MAIN is main is loop b ::= #IN.get_byte; while!(b >= 0); #OUT + b.char; end; end; end;'


@dataclasses.dataclass
class Try:
    """A program that is run in the hosts: its name, its source, its input, the command whose run it is held to, and whether
    somebody reads its output."""
    name: str
    source: bytes
    input: bytes = b''
    command: str = 'exec'
    is_read: bool = True

    def run(self, words, folder, **how):
        """What the words leave that run it in a folder."""
        with contextlib.nullcontext(subprocess.PIPE) if self.is_read else unread_pipe() as out:
            return report.run(words, folder, input=self.input, stdout=out, **how)


ENDS = [
    Try('the low 8 bits of a result are the status', b'class MAIN is main:INT is #OUT + "a"; return 300; end; end;'),
    Try('output stands before a fault', b'class MAIN is main is loop #OUT + 1.upto!(20000); end; #OUT + 1 / 0; end; end;'),
    Try('calls 10,000 deep are a fault and no end of the stack', DEEP),
    Try('each byte goes through', COPY, bytes(range(256)) * 800),
    Try('the end of the input comes again', b'class MAIN is main is #OUT + #IN.get_byte + #IN.get_byte; end; end;'),
    Try('a raise that nothing catches', b'class MAIN is main is raise "a"; end; end;'),
    Try('an output that nobody reads', b'class MAIN is main is loop #OUT + "a"; end; end; end;', is_read=False),
]

# A name, the options and the module for run.js, the source, and what has to be left.
OPTIONS = [
    ('a run is ended when its time is up', ['--seconds', '1', 'm.wasm'], ENDLESS, Left(b'a\n', TIME_SPENT, 122)),
    ('a run within its time ends by itself', ['--seconds', '100', 'm.wasm'], COPY, Left()),
    ('a memory past the limit isn\'t given', ['--memory', '1', 'm.wasm'], COPY, Left(lines=b'out of memory\n', status=125)),
    ('an output past the limit isn\'t written', ['--output', '70', 'm.wasm'], PRINTS, Left(b'a' * 71680, b'output spent\n', 122)),
    ('an output within the limit is whole', ['--output', '98', 'm.wasm'], PRINTS, Left(b'a' * 100000)),
    ('a small stack ends deep calls', ['--stack', '1', 'm.wasm'], DEEP, Left(b'a\n', b'm.wasm: too deep\n', 126)),
    ('the sites tell the line of a fault', ['--sites', 'm.json', 'm.wasm'], DIVIDES,
     Left(b'a', b'm.sa:2: fault: division by zero\n', 121)),
    ('sites that are missing are a store fault', ['--sites', 'n.json', 'm.wasm'], DIVIDES, Left(lines=b'store fault\n', status=123)),
    ('a text is no module', ['m.sa'], COPY, Left(lines=b'm.sa: invalid\n', status=126)),
    ('a module that is missing is a store fault', ['n.wasm'], COPY, Left(lines=b'store fault\n', status=123)),
]


def in_node(folder, tried):
    """What the module leaves in the host of Node."""
    return tried.run(['node', RUN_JS, 'm.wasm'], folder)


def in_c(folder, tried):
    """What the module leaves as a native program, or what the making of one leaves where it fails."""
    made = report.run([BUILD, '-o', 'native', 'm.wasm'], folder, env={**os.environ, 'CFLAGS': '-O1'})
    if made.status != 0:
        return made
    # The program tells the name by which it was called.
    return tried.run(['m.wasm'], folder, executable=os.path.join(folder, 'native'))


def has_c():
    """Whether all is there that makes a native program."""
    if not shutil.which('wasm2c') or not os.path.isfile(os.path.join(RUNTIME, 'wasm-rt-impl.c')):
        return False
    version = subprocess.run(['wasm2c', '--version'], stdout=subprocess.PIPE, text=True, check=False).stdout
    return version.strip() == WABT and shutil.which(os.environ.get('CC', 'cc')) is not None


def hosts_here(told):
    """The hosts whose tools are there, by name; the others are noted in the report."""
    hosts = {}
    if judges.has_node():
        hosts['Node'] = in_node
    else:
        told.lacks('node', 'nothing was run in the host of Node')
    if has_c():
        hosts['C'] = in_c
    else:
        told.lacks('wasm2c of wabt %s or a C compiler' % WABT, 'nothing was run in the host of C')
    return hosts


def held_to(program, tried, folder):
    """What the program itself leaves, which the hosts are held to."""
    words = ['run', 'm.sa'] if tried.command == 'run' else ['exec', 'm.wasm']
    return tried.run([program, *words], folder)


def compared(program, hosts, tried):
    """What differs in each of the hosts, by its name, or one text where there is no module."""
    with report.folder_with({'m.sa': tried.source}) as folder:
        built = report.run([program, 'build', '-o', 'm.wasm', 'm.sa'], folder)
        if built != Left():
            return 'build left %r and status %d' % (built.lines, built.status)
        wanted = held_to(program, tried, folder)
        return {name: report.difference(wanted, host(folder, tried)) for name, host in hosts.items()}


def with_options(program, option):
    """What differs from what the host of Node has to leave with these options, or None."""
    _, words, source, wanted = option
    with report.folder_with({'m.sa': source}) as folder:
        report.run([program, 'build', '--sites', 'm.json', '-o', 'm.wasm', 'm.sa'], folder)
        left = report.run(['node', RUN_JS, *words], folder)
        # Where the machine is busy, the time may be up before anything was put out.
        return report.difference(wanted, left, output_may_be_cut=wanted.lines == TIME_SPENT)


def of_examples():
    """The examples, which are held to `run`."""
    for name in examples.names():
        yield Try('examples/%s.sa' % name, examples.bytes_of(name + '.sa'), examples.bytes_of(name + '.in') or b'', 'run')


def try_all(program, told, word=''):
    """Tries what has a name that holds the word."""
    hosts = hosts_here(told)
    chosen = [tried for tried in [*of_examples(), *ENDS] if word in tried.name]
    options = [option for option in OPTIONS if word in option[0]] if 'Node' in hosts else []
    told.part('hosts', len(chosen) * len(hosts) + len(options))
    for tried, found in zip(chosen, report.side_by_side(functools.partial(compared, program, hosts), chosen)):
        found = {name: found for name in hosts} if isinstance(found, str) else found
        for name, wrong in found.items():
            told.count('%s, in %s' % (tried.name, name), wrong)
    for option, wrong in zip(options, report.side_by_side(functools.partial(with_options, program), options)):
        told.count('%s, in Node' % option[0], wrong)


if __name__ == '__main__':
    sys.exit(report.of_script(__doc__, try_all))
