#!/usr/bin/env python3
"""checker.py [--program PROGRAM] [--only WORD]

Measures how long `sather check` takes for large sources, and in how much memory: ordinary classes, many instances of one
class, and the forms that make a checker slow, which are long chains of classes, diamonds, overloads and includes. Each
source is made here, has to be accepted, and has a bar: 5 seconds and 2 GiB. For ordinary classes twice the source may take
at most 2.3 times the time. --only measures the sources whose names hold a word.

The status is 1 where a source isn't accepted or is over its bar."""
import argparse
import os
import resource
import subprocess
import sys
import tempfile
import time

ROOT = os.path.dirname(os.path.dirname(os.path.abspath(__file__)))
SECONDS = 5.0           # the bar of a source
MEBIBYTES = 2048
DOUBLED = 2.3           # how many times the time twice the source may take
MOST_MEBIBYTES = 8192   # the address space of the program, so that a source far over its bar ends

LARGEST = 4 * 1024 * 1024
MAIN = 'class MAIN is main is end; end;\n'
ORDINARY = '''class C{0} is
   attr n, m:INT;
   create(n:INT):SAME is r ::= new; r.n := n; return r; end;
   sum(k:INT):INT is s ::= 0; i ::= 0; loop while!(i < k); s := s + i * n; i := i + 1; end; return s; end;
   each!:INT is i ::= 0; loop until!(i = n); yield i; i := i + 1; end; end;
end;
'''


def ordinary(size):
    """Classes with attributes, routines and an iter, none of which is needed: as many as fit into so many bytes."""
    classes = []
    left = size - len(MAIN)
    while True:
        text = ORDINARY.format(len(classes))
        if len(text) > left:
            return ''.join(classes) + MAIN
        classes.append(text)
        left -= len(text)


def needed(count):
    """So many of the same classes, all of them needed."""
    classes = ''.join(ORDINARY.format(number) for number in range(count))
    uses = ''.join('attr c%d:C%d; ' % (number, number) for number in range(count))
    return classes + 'class MAIN is ' + uses + 'main is end; end;\n'


def instances():
    """1,936 instances of one class, with some 180,000 nodes together."""
    names = ''.join('class A%d is end; ' % number for number in range(44))
    pairs = ''.join('attr a%d_%d:P{A%d,A%d}; ' % (i, j, i, j) for i in range(44) for j in range(44))
    body = 'x := x + 1; ' * 22
    return names + 'class P{S,T} is f(s:S, t:T):INT is x ::= 1; %sreturn x; end; end;\n' % body + \
        'class MAIN is %smain is end; end;\n' % pairs


def chain():
    """20,000 abstract classes, each below the next."""
    links = ''.join('abstract class $A%d < $A%d is end;\n' % (number, number + 1) for number in range(19999))
    return links + 'abstract class $A19999 is end;\n' + MAIN


def diamond():
    """20 levels of two classes, each below both of the next level."""
    levels = ''.join('abstract class $A{0}{{T}} < $A{1}{{T}}, $B{1}{{T}} is end; abstract class $B{0}{{T}} < $A{1}{{T}}, '
                     '$B{1}{{T}} is end;\n'.format(level, level + 1) for level in range(19))
    last = 'abstract class $A19{T} is end; abstract class $B19{T} is end;\n'
    return levels + last + 'class MAIN is main is x:$A0{INT}; y:$B19{INT} := x; end; end;\n'


def overloads():
    """5,000 routines of one name, and 200 calls of them."""
    kinds = ''.join('class K%d is end; ' % number for number in range(71))
    pairs = [(i, j) for i in range(71) for j in range(71)][:5000]
    routines = ''.join('f(a:K%d, b:K%d) is end;\n' % pair for pair in pairs)
    variables = ''.join('k%d:K%d; ' % (number, number) for number in range(71))
    calls = ''.join('f(k%d, k%d); ' % pair for pair in pairs[::25])
    return kinds + 'class MAIN is\n' + routines + 'main is %s%send; end;\n' % (variables, calls)


def includes():
    """A chain of 2,000 classes, each with a routine and all that the one before it has."""
    links = ''.join('class C%d is include C%d; f%d is end; end;\n' % (number, number - 1, number)
                    for number in range(1, 2000))
    return 'class C0 is f0 is end; end;\n' + links + MAIN


SOURCES = [
    ('4 MiB of ordinary classes', lambda: ordinary(LARGEST)),
    ('2 MiB of ordinary classes', lambda: ordinary(LARGEST // 2)),
    ('1,900 needed classes', lambda: needed(1900)),
    ('1,936 instances of one class', instances),
    ('a chain of 20,000 classes', chain),
    ('a diamond of 20 levels', diamond),
    ('5,000 overloads of one name', overloads),
    ('an include chain of 2,000 classes', includes),
]


def limited():
    bytes_ = MOST_MEBIBYTES * 1024 * 1024
    resource.setrlimit(resource.RLIMIT_AS, (bytes_, bytes_))


def measure(program, text):
    """The seconds and the mebibytes that a check takes, and what the program says where it doesn't accept the source."""
    with tempfile.TemporaryDirectory() as folder:
        path = os.path.join(folder, 'f.sa')
        with open(path, 'w', encoding='latin-1') as file:
            file.write(text)
        started = time.monotonic()
        child = subprocess.Popen([program, 'check', path], stdin=subprocess.DEVNULL, stdout=subprocess.PIPE,
                                 stderr=subprocess.STDOUT, preexec_fn=limited)
        told = child.stdout.read()
        _, status, usage = os.wait4(child.pid, 0)
        seconds = time.monotonic() - started
    child.returncode = os.waitstatus_to_exitcode(status)
    accepted = told == b'accepted\n' and child.returncode == 0
    said = '' if accepted else 'status %d: %s' % (child.returncode, told.decode('latin-1').strip())
    return seconds, usage.ru_maxrss / 1024, said


def main():
    parser = argparse.ArgumentParser(usage='checker.py [--program PROGRAM] [--only WORD]')
    parser.add_argument('--program', default=os.path.join(ROOT, 'sather'))
    parser.add_argument('--only', default='')
    options = parser.parse_args()
    failed = False
    times = {}
    print('%-36s %10s %9s %9s' % ('source', 'bytes', 'seconds', 'MiB'))
    for name, make in SOURCES:
        if options.only not in name:
            continue
        text = make()
        seconds, mebibytes, said = measure(options.program, text)
        times[name] = seconds
        if not said and (seconds >= SECONDS or mebibytes >= MEBIBYTES):
            said = 'over its bar'
        failed = failed or bool(said)
        print('%-36s %10d %9.2f %9.0f %s' % (name, len(text), seconds, mebibytes, said))
    larger, half = times.get('4 MiB of ordinary classes'), times.get('2 MiB of ordinary classes')
    if larger and half:
        ratio = larger / half
        print('twice the source takes %.2f times the time%s' % (ratio, ' over its bar' * (ratio > DOUBLED)))
        failed = failed or ratio > DOUBLED
    return 1 if failed else 0


if __name__ == '__main__':
    sys.exit(main())
