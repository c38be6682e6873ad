#!/usr/bin/env python3
"""small_host.py PROGRAM [--only WORD] [--step MB] [--measure]

Runs the program in a host that has little to give:

- an address space of 20 to 400 MB, in steps of so many, 40 without --step: each command answers as it does in a large one, or that
  memory ran out, and then out has a front of what was due;
- a stack of 4 MiB: the sources and modules of deep.py, which nest as deep as the limits allow, answer as they should.

--measure prints the least stack that each of these needs instead. --only takes what has a name that holds the word."""
import argparse
import functools
import os
import sys

import binary
import deep
import listings
import refused
import report
from refused import Command
from report import Left

LEAST, MOST = 20, 400       # MB of an address space
STACK = 4096                # KiB
LARGE_STACK = 1 << 20
FINE = 16                   # KiB to which a stack is measured
LARGE = deep.main_of('x ::= 0; ' + 'x := x + 1; ' * 20_000)


def limited(limit, program):
    """The words of a shell that runs the program with a limit: of the address space (-v) or of the stack (-s), in KiB."""
    return ['sh', '-c', 'ulimit %s && exec "$0" "$@"' % limit, program]


def commands(program):
    """The commands that are run in little memory: those to which allocations are refused, and some that take much."""
    yield from refused.commands(program)
    yield Command('run with a room of 300 MB', 'run --room 300000 f.sa', {'f.sa': refused.HELLO})
    yield Command('build of a large source', 'build -o m f.sa', {'f.sa': LARGE.encode()}, writes='m')
    yield Command('exec of a large section that is passed over', 'exec m', {'m': binary.PREAMBLE + binary.section(0, bytes(10 ** 7))})
    yield Command('exec of a million instructions', 'exec m', {'m': deep.module_of(b'\1' * 10 ** 6)})
    yield Command('selftest of 500 classes', 'selftest 500')


def tried_in_memory(program, own, task):
    """What is wrong with a command in an address space of so many MB, or None."""
    command, size = task
    return refused.of_memory(own[command.name], command.run(*limited('-v %d' % (size * 1000), program)))


def try_memory(program, told, word, step):
    """Runs the commands in address spaces of each size."""
    chosen = [command for command in commands(program) if word in command.name]
    own = {command.name: command.run(program) for command in chosen}
    tasks = [(command, size) for command in chosen for size in range(LEAST, MOST + 1, step)]
    told.part('little memory', len(tasks))
    for (command, size), wrong in zip(tasks, report.side_by_side(functools.partial(tried_in_memory, program, own), tasks)):
        told.count('%s, in %d MB' % (command.name, size), wrong)


def deepest(word):
    """The commands that nest as deep as they may, each with what it should leave."""
    for name, source, output in deep.sources():
        if word in name:
            yield Command(name, 'run f.sa', {'f.sa': source.encode()}), Left(output.encode())
    for name, module, left in deep.modules():
        if word in name:
            yield Command('a module: ' + name, 'exec m', {'m': module}), left
            listing = listings.listing_of(module)
            yield Command('a listing: ' + name, 'listing m', {'m': module}), Left(listing)
            yield Command('a module of a listing: ' + name, 'assemble -o n l', {'l': listing}), Left()


def tried_with_stack(program, task, stack=STACK):
    """What is wrong with a command that has a stack of so many KiB, or None."""
    command, wanted = task
    return report.difference(wanted, command.run(*limited('-s %d' % stack, program))[0])


def try_stack(program, told, word):
    """Runs what nests deep with a small stack."""
    tasks = list(deepest(word))
    told.part('a stack of %d KiB' % STACK, len(tasks))
    for (command, _), wrong in zip(tasks, report.side_by_side(functools.partial(tried_with_stack, program), tasks)):
        told.count(command.name, wrong)


def least_stack(program, task):
    """The least stack, in KiB, with which a command leaves what it should, to the next multiple of FINE, or None without one."""
    few, enough = 0, LARGE_STACK // FINE
    if tried_with_stack(program, task, enough * FINE) is not None:
        return None
    while enough - few > 1:
        middle = (few + min(enough, 4 * few + 64)) // 2
        if tried_with_stack(program, task, middle * FINE) is None:
            enough = middle
        else:
            few = middle
    return enough * FINE


def measure(program, told, word):
    """Prints the least stacks."""
    tasks = list(deepest(word))
    for (command, _), least in zip(tasks, report.side_by_side(functools.partial(least_stack, program), tasks)):
        told.line('| %s | %s |' % (command.name, least))
        told.count(command.name, None if least is not None else 'it doesn\'t end as it should with any stack')


def try_all(program, told, word='', step=40):
    """Runs the program with little memory and with a small stack."""
    try_memory(program, told, word, step)
    try_stack(program, told, word)


def main():
    words = argparse.ArgumentParser(description=__doc__, formatter_class=argparse.RawDescriptionHelpFormatter)
    words.add_argument('program')
    words.add_argument('--only', default='')
    words.add_argument('--step', type=int, default=40)
    words.add_argument('--measure', action='store_true')
    given = words.parse_args()
    told, program = report.Report(), os.path.abspath(given.program)
    if given.measure:
        measure(program, told, given.only)
    else:
        try_all(program, told, given.only, given.step)
    return told.close()


if __name__ == '__main__':
    sys.exit(main())
