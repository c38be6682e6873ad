#!/usr/bin/env python3
"""machine.py [--program PROGRAM] [--rounds N] [--scale PERCENT]

Measures how fast `sather exec` runs modules, beside the interpreter `wasm-interp` of wabt, and how long it takes to decode
and validate a module of 60 MiB.

Five modules are made with `wat2wasm`: an arithmetic loop, filling and copying of memory, recursive calls, `br_table` and
`call_indirect`. Each exports `main`, which gives a number below 64, and both machines have to give the same. The time of a
machine is the best of N runs, 3 without --rounds, the start of the program included. The instructions are those that
`sather exec --stats` counts; `else` and `end` are none. The ratio is the speed of `sather exec` by that of `wasm-interp`.
--scale makes the modules run that many percent of their rounds.

A tool that is missing is named, and what needs it is left out. The status is 1 where two machines disagree or a run fails."""
import argparse
import os
import re
import shutil
import subprocess
import sys
import tempfile
import time

ROOT = os.path.dirname(os.path.dirname(os.path.abspath(__file__)))
sys.path.insert(0, os.path.join(ROOT, 'conformance'))
from binary import PREAMBLE, counted, section, unsigned     # the writer of the binary format is with the other scripts

RUN_SECONDS = 300       # the longest that one run may take
CLOCK = time.perf_counter   # gives the seconds of which runs are timed by the difference
VALIDATE_BAR = 5.0      # seconds for the module of 60 MiB
VALIDATE_BYTES = 60 * 1024 * 1024

ARITHMETIC = '''
(module
  (func (export "main") (result i32) (local $n i32) (local $x i32) (local $y i64)
    (local.set $n (i32.const {rounds}))
    (local.set $x (i32.const 12345))
    (loop $again
      (local.set $x (i32.add (i32.mul (local.get $x) (i32.const 1103515245)) (i32.const 12345)))
      (local.set $x (i32.xor (local.get $x) (i32.shr_u (local.get $x) (i32.const 7))))
      (local.set $y (i64.add (i64.rotl (local.get $y) (i64.const 5)) (i64.extend_i32_u (local.get $x))))
      (br_if $again (local.tee $n (i32.sub (local.get $n) (i32.const 1)))))
    (i32.and (i32.xor (local.get $x) (i32.wrap_i64 (local.get $y))) (i32.const 63))))
'''

MEMORY = '''
(module
  (memory 4 4)
  (func $fill (param $seed i32) (local $at i32)
    (loop $again
      (i32.store (local.get $at) (i32.mul (i32.add (local.get $at) (local.get $seed)) (i32.const 40503)))
      (br_if $again (i32.lt_u (local.tee $at (i32.add (local.get $at) (i32.const 4))) (i32.const 131072)))))
  (func $copy (local $at i32)
    (loop $again
      (i64.store offset=131072 (local.get $at) (i64.load (local.get $at)))
      (br_if $again (i32.lt_u (local.tee $at (i32.add (local.get $at) (i32.const 8))) (i32.const 131072)))))
  (func $sum (result i32) (local $at i32) (local $sum i32)
    (loop $again
      (local.set $sum (i32.add (local.get $sum) (i32.load8_u offset=131072 (local.get $at))))
      (br_if $again (i32.lt_u (local.tee $at (i32.add (local.get $at) (i32.const 13))) (i32.const 131072))))
    (local.get $sum))
  (func (export "main") (result i32) (local $n i32) (local $sum i32)
    (local.set $n (i32.const {rounds}))
    (loop $again
      (call $fill (local.get $n))
      (call $copy)
      (local.set $sum (i32.add (local.get $sum) (call $sum)))
      (br_if $again (local.tee $n (i32.sub (local.get $n) (i32.const 1)))))
    (i32.and (local.get $sum) (i32.const 63))))
'''

CALLS = '''
(module
  (func $fibonacci (param $n i32) (result i32)
    (if (result i32) (i32.lt_u (local.get $n) (i32.const 2))
      (then (local.get $n))
      (else (i32.add
        (call $fibonacci (i32.sub (local.get $n) (i32.const 1)))
        (call $fibonacci (i32.sub (local.get $n) (i32.const 2)))))))
  (func (export "main") (result i32) (local $n i32) (local $sum i32)
    (local.set $n (i32.const {rounds}))
    (loop $again
      (local.set $sum (i32.add (local.get $sum) (call $fibonacci (i32.const 25))))
      (br_if $again (local.tee $n (i32.sub (local.get $n) (i32.const 1)))))
    (i32.and (local.get $sum) (i32.const 63))))
'''

BR_TABLE = '''
(module
  (func (export "main") (result i32) (local $n i32) (local $x i32)
    (local.set $n (i32.const {rounds}))
    (loop $again
      (block $next
        (block $5 (block $4 (block $3 (block $2 (block $1 (block $0
          (br_table $0 $1 $2 $3 $4 $5 (i32.rem_u (i32.xor (local.get $n) (local.get $x)) (i32.const 7))))
          (local.set $x (i32.add (local.get $x) (i32.const 3))) (br $next))
          (local.set $x (i32.xor (local.get $x) (i32.const 21))) (br $next))
          (local.set $x (i32.mul (local.get $x) (i32.const 5))) (br $next))
          (local.set $x (i32.sub (local.get $x) (local.get $n))) (br $next))
          (local.set $x (i32.rotl (local.get $x) (i32.const 9))) (br $next))
          (local.set $x (i32.or (local.get $x) (i32.const 1))))
      (br_if $again (local.tee $n (i32.sub (local.get $n) (i32.const 1)))))
    (i32.and (local.get $x) (i32.const 63))))
'''

CALL_INDIRECT = '''
(module
  (type $step (func (param i32) (result i32)))
  (table funcref (elem $add $xor $mul $rotate))
  (func $add (type $step) (i32.add (local.get 0) (i32.const 7)))
  (func $xor (type $step) (i32.xor (local.get 0) (i32.const 99)))
  (func $mul (type $step) (i32.mul (local.get 0) (i32.const 17)))
  (func $rotate (type $step) (i32.rotl (local.get 0) (i32.const 3)))
  (func (export "main") (result i32) (local $n i32) (local $x i32)
    (local.set $n (i32.const {rounds}))
    (loop $again
      (local.set $x (call_indirect (type $step) (local.get $x) (i32.and (local.get $n) (i32.const 3))))
      (br_if $again (local.tee $n (i32.sub (local.get $n) (i32.const 1)))))
    (i32.and (local.get $x) (i32.const 63))))
'''

# The name of each module, its text, and how many rounds its `main` makes at full scale.
MODULES = [
    ('arithmetic', ARITHMETIC, 12_000_000),
    ('memory', MEMORY, 400),
    ('calls', CALLS, 60),
    ('br_table', BR_TABLE, 16_000_000),
    ('call_indirect', CALL_INDIRECT, 16_000_000),
]


def ordinary_body(number):
    """A code entry of about 300 bytes: two locals, a loop, a condition, loads and stores, and calls of a function of the
    same type, [i32] -> [i32]."""
    constant = bytes([0x41]) + unsigned(number % 64)
    callee = bytes([0x10]) + unsigned(number)
    stored = bytes.fromhex('2000') + constant + bytes.fromhex('6a41ff0171') + constant + bytes.fromhex('360204')
    loaded = bytes.fromhex('200041fc0171280208') + constant + bytes.fromhex('6a2101')
    condition = bytes.fromhex('2001') + constant + bytes.fromhex('4904402001410174210105200141036b210120002001') + \
        bytes.fromhex('6a21000b')
    called = bytes.fromhex('2001') + callee + bytes.fromhex('2101')
    widened = bytes.fromhex('2002200028020041016aac7c2102')
    loop = bytes.fromhex('0340') + (stored + loaded + condition + called + widened) * 4 + \
        bytes.fromhex('200141016b22010d000b')
    return counted(bytes.fromhex('02017f017e') + loop + bytes.fromhex('2002a720016a0b'))


def large_module():
    """A valid module of about 60 MiB with many functions with ordinary bodies, whose `main` does nothing."""
    bodies = [ordinary_body(number) for number in range(256)]
    funcs = VALIDATE_BYTES * len(bodies) // (sum(map(len, bodies)) + len(bodies))
    types = unsigned(2) + bytes.fromhex('60017f017f600000')
    numbers = unsigned(funcs + 1) + bytes(funcs) + bytes([1])
    code = unsigned(funcs + 1) + b''.join(bodies[number % 256] for number in range(funcs)) + counted(bytes([0, 0x0b]))
    export = unsigned(1) + counted(b'main') + bytes([0]) + unsigned(funcs)
    return PREAMBLE + section(1, types) + section(3, numbers) + section(5, bytes.fromhex('01010101')) + \
        section(7, export) + section(10, code)


def best(words, folder, rounds):
    """The shortest of so many runs, in seconds, and how the last of them ended."""
    shortest = None
    for _ in range(rounds):
        start = CLOCK()
        ended = subprocess.run(words, cwd=folder, stdin=subprocess.DEVNULL, capture_output=True, timeout=RUN_SECONDS)
        taken = CLOCK() - start
        shortest = taken if shortest is None else min(shortest, taken)
    return shortest, ended


def run_sather(program, folder, rounds):
    """The seconds, the number of instructions and the result of the module `m` in `sather exec`."""
    seconds, ended = best([program, 'exec', '--stats', 'm'], folder, rounds)
    stats = re.fullmatch(rb'steps (\d+), bytes \d+\n', ended.stderr)
    if not stats:
        raise ValueError('sather exec ended with status %d and %r' % (ended.returncode, ended.stderr))
    return seconds, int(stats.group(1)), ended.returncode


def run_wabt(folder, rounds):
    """The seconds and the result of the module `m` in `wasm-interp`."""
    seconds, ended = best(['wasm-interp', 'm', '--run-all-exports'], folder, rounds)
    result = re.fullmatch(rb'main\(\) =>(?: i32:(\d+))?\n', ended.stdout)
    if not result:
        raise ValueError('wasm-interp ended with status %d and %r' % (ended.returncode, ended.stdout))
    return seconds, int(result.group(1) or 0)


def measure(name, program, has_wabt, folder, rounds):
    """Prints the row of the module `m`. Gives whether both machines agree on its result."""
    steps = seconds = wabt_seconds = result = wabt_result = None
    if program:
        seconds, steps, result = run_sather(program, folder, rounds)
    if has_wabt:
        wabt_seconds, wabt_result = run_wabt(folder, rounds)
    row = [name, steps, seconds and '%.2f' % seconds, wabt_seconds and '%.2f' % wabt_seconds]
    row.append(steps and '%.0f' % (steps / seconds / 1e6))
    row.append(steps and wabt_seconds and '%.0f' % (steps / wabt_seconds / 1e6))
    row.append(seconds and wabt_seconds and '%.2f' % (wabt_seconds / seconds))
    print('%-14s %13s %9s %9s %12s %12s %8s' % tuple('-' if cell is None else cell for cell in row), flush=True)
    if result is not None and wabt_result is not None and result != wabt_result:
        print('%s: sather gives %d, wasm-interp %d' % (name, result, wabt_result))
        return False
    return True


def measure_running(program, has_wabt, folder, rounds, scale):
    """Prints the table of the five modules. Gives whether all went well."""
    print('%-14s %13s %9s %9s %12s %12s %8s' % ('module', 'instructions', 'sather s', 'wabt s', 'sather M/s', 'wabt M/s',
                                              'ratio'))
    well = True
    for name, text, full in MODULES:
        with open(os.path.join(folder, 'm.wat'), 'w') as file:
            file.write(text.replace('{rounds}', str(max(1, full * scale // 100))))
        subprocess.run(['wat2wasm', 'm.wat', '-o', 'm'], cwd=folder, check=True, timeout=60)
        try:
            well &= measure(name, program, has_wabt, folder, rounds)
        except (ValueError, subprocess.TimeoutExpired) as failure:
            print('%s: %s' % (name, failure))
            well = False
    return well


def measure_validating(program, folder, rounds):
    """Prints how long a module of 60 MiB takes until its empty `main` has run. Gives whether it went well."""
    module = large_module()
    with open(os.path.join(folder, 'm'), 'wb') as file:
        file.write(module)
    if shutil.which('wasm-validate'):
        seconds, ended = best(['wasm-validate', 'm'], folder, rounds)
        print('wasm-validate: %.2f s, %s' % (seconds, 'valid' if ended.returncode == 0 else 'NOT VALID'))
    if not program:
        return True
    try:
        seconds, steps, _ = run_sather(program, folder, rounds)
    except (ValueError, subprocess.TimeoutExpired) as failure:
        print('decode and validate: %s' % failure)
        return False
    print('decode and validate %.1f MiB: %.2f s, which is %s the bar of %.0f s' % (
        len(module) / 2 ** 20, seconds, 'under' if seconds < VALIDATE_BAR else 'OVER', VALIDATE_BAR))
    return steps == 0


def main():
    words = argparse.ArgumentParser(description=__doc__, formatter_class=argparse.RawDescriptionHelpFormatter)
    words.add_argument('--program', default='./sather')
    words.add_argument('--rounds', type=int, default=3)
    words.add_argument('--scale', type=int, default=100)
    given = words.parse_args()
    program = shutil.which(given.program)
    if program:
        program = os.path.abspath(program)
    else:
        print('%s: no such program, so only wabt is measured' % given.program)
    has_wabt = shutil.which('wasm-interp') is not None
    if not has_wabt:
        print('wasm-interp (wabt) is missing, so nothing is compared with it')
    well = True
    with tempfile.TemporaryDirectory() as folder:
        if shutil.which('wat2wasm'):
            well &= measure_running(program, has_wabt, folder, given.rounds, given.scale)
        else:
            print('wat2wasm (wabt) is missing, so the five modules are not made')
        well &= measure_validating(program, folder, given.rounds)
    return 0 if well else 1


if __name__ == '__main__':
    sys.exit(main())
