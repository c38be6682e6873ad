#!/usr/bin/env python3
"""floats.py PROGRAM [--count N] [--seed S] [--kinds LETTERS]

Compares FLT of lib/flt.sa and lib/flt_text.sa with the single precision of the machine: N random cases of sums, differences,
products, quotients, roots, comparisons, whole numbers, and texts in both directions. Half of them lie where rounding is
hard: numbers of nearly equal or very different sizes, the smallest ones and the greatest, powers of two and their
neighbours, and texts in the middle of two numbers or just beside it. With --kinds only cases of the operations whose letters
are given: those of conformance/floats.sa.

What the machine gives is asked in double precision and then rounded to single, which is the same as a single rounding for these
operations, since 53 bits are more than twice 24; numbers of texts are those of the C library's strtof."""
import argparse
import ctypes
import decimal
import functools
import math
import os
import random
import struct
import sys

import report

COUNT = 1000    # cases where no number is given
PART = 5000     # cases of a run
SECONDS = 600   # the most that these may take
KINDS = '+-*/+-*/+-*/qcwisdrr'
ROOM = '262144'
NAN, INF, SIGN = 0x7fc00000, 0x7f800000, 0x80000000
SPECIAL = [0, 1, 2, 3, 0x7fffff, 0x800000, 0x800001, 0x3f800000, 0x3f7fffff, 0x3f800001, 0x3effffff, 0x3f000000, 0x4b000000, 0x4b7fffff,
           0x4b800000, 0x4effffff, 0x4f000000, 0x7f7fffff, INF, NAN]
LIBC = ctypes.CDLL(None)
LIBC.strtof.restype = ctypes.c_float
LIBC.strtof.argtypes = [ctypes.c_char_p, ctypes.c_void_p]
decimal.getcontext().prec = 400


def value(bits):
    """The number of these bits, in double precision."""
    return struct.unpack('<f', struct.pack('<I', bits))[0]


def bits(number):
    """The bits of a number that is rounded to single precision; those of one NaN for all."""
    if math.isnan(number):
        return NAN
    return struct.unpack('<I', bytes(ctypes.c_float(number)))[0]


def signed(number):
    """Bits as an INT."""
    return number - (1 << 32) if number & SIGN else number


def quotient(a, b):
    """The quotient in double precision."""
    if b != 0 or math.isnan(a) or math.isnan(b):
        return a / b
    return math.nan if a == 0 else math.copysign(math.inf, math.copysign(1, a) * math.copysign(1, b))


def root(a):
    """The square root in double precision."""
    return math.nan if a < 0 else math.sqrt(a)


OPERATIONS = {'+': lambda a, b: a + b, '-': lambda a, b: a - b, '*': lambda a, b: a * b, '/': quotient}


def compared(a, b):
    """What the comparisons give, and the lesser and the greater one, which is the first one where none is less."""
    answers = ''.join(str(answer).lower() for answer in (a == b, a != b, a < b, a <= b, a > b, a >= b))
    return '%s%d %d' % (answers, signed(bits(b if b < a else a)), signed(bits(b if a < b else a)))


def whole(a):
    """The whole numbers of a number, or the fault."""
    if not math.isfinite(a):
        return 'overflow'
    numbers = [math.trunc(a), math.floor(a), math.ceil(a), int(math.copysign(math.floor(abs(a) + 0.5), a))]
    return ' '.join(map(str, numbers)) if all(-2 ** 31 <= number < 2 ** 31 for number in numbers) else 'overflow'


def shortest(number):
    """The fewest digits from which a finite number comes again, and the decimal exponent of the first."""
    for digits in range(9):
        text = '%.*e' % (digits, number)
        if LIBC.strtof(text.encode(), None) == number:
            front, exponent = text.split('e')
            return front.replace('.', '').rstrip('0') or '0', int(exponent)
    raise AssertionError('nine digits tell all numbers apart')


def text_of(number):
    """The text of a number."""
    if math.isnan(number):
        return 'NaN'
    sign = '-' if math.copysign(1, number) < 0 else ''
    if math.isinf(number) or number == 0:
        return sign + ('Inf' if number else '0')
    digits, exponent = shortest(abs(number))
    if exponent < -5 or exponent > 8:
        return '%s%s%se%d' % (sign, digits[0], '.' + digits[1:] if digits[1:] else '', exponent)
    return sign + format(decimal.Decimal(digits).scaleb(exponent - len(digits) + 1), 'f')


def fixed(number, digits):
    """The text of a number with so many digits behind the point; nothing but zeros has no sign."""
    if not math.isfinite(number):
        return text_of(number)
    text = '%.*f' % (digits, number)
    return text.removeprefix('-') if not text.strip('-0.') else text


OF_ONE = {'q': lambda a: signed(bits(root(a))), 'w': whole, 's': text_of}


class Maker:
    """Makes random cases, each with what the machine gives."""

    def __init__(self, seed, kinds):
        self.random = random.Random(seed)
        self.kinds = kinds

    def number(self):
        """The bits of a number."""
        way = self.random.randrange(8)
        if way == 0:
            made = self.random.choice(SPECIAL)
        elif way == 1:
            made = self.random.randrange(0x1000000)
        elif way == 2:
            made = (self.random.randrange(255) << 23) + self.random.randrange(-3, 4)
        elif way == 3:
            made = bits(float(self.random.randrange(10 ** self.random.randrange(1, 10))))
        elif way == 4:
            made = bits(self.random.randrange(10 ** 6) / 10 ** self.random.randrange(7))
        else:
            made = self.random.getrandbits(31)
        made = abs(made) | (self.random.getrandbits(1) << 31)
        return made if made & ~SIGN <= INF else NAN

    def beside(self, first):
        """The bits of a number that is like another one, or not."""
        way = self.random.randrange(4)
        if way == 0:
            return self.number()
        if way == 1:
            made = first ^ self.random.choice([0, 1, SIGN, SIGN | 1, SIGN | 2, SIGN | self.random.getrandbits(23)])
        else:
            exponent = (first >> 23 & 255) + self.random.randrange(-27, 28)
            made = (max(0, min(254, exponent)) << 23) | self.random.getrandbits(23) | (self.random.getrandbits(1) << 31)
        return made if made & ~SIGN <= INF else NAN

    def text(self):
        """A text of a number."""
        way = self.random.randrange(5)
        if way == 0:
            return '%s%d.%de%d' % (self.random.choice(['', '-', '+']), self.random.randrange(1000), self.random.randrange(10 ** 12),
                                   self.random.randrange(-60, 45))
        number = value(self.number() & ~SIGN)
        if not math.isfinite(number):
            number = 1.5
        if way == 1:
            return '%.*e' % (self.random.randrange(12), number)
        if way == 2:
            return '%.*f' % (self.random.randrange(20), number)
        above = value(bits(number) + 1) if bits(number) < INF - 1 else 2.0 ** 128
        middle = (decimal.Decimal(number) + decimal.Decimal(above)) / 2
        if way == 3:
            return format(middle, 'f')
        return format(middle + self.random.choice([-1, 1]) * middle.scaleb(-self.random.randrange(5, 130)), 'f')[:300]

    def case(self):
        """A case, and the answer to it."""
        letter = self.random.choice(self.kinds)
        if letter == 'r':
            text = self.text()
            return 'r' + text, signed(bits(LIBC.strtof(text.encode(), None)))
        if letter == 'i':
            number = signed(self.random.getrandbits(32)) // 2 ** self.random.randrange(32)
            return 'i%d' % number, signed(bits(float(number)))
        first = self.number()
        a = value(first)
        if letter in OPERATIONS or letter == 'c':
            second = self.beside(first)
            answer = compared(a, value(second)) if letter == 'c' else signed(bits(OPERATIONS[letter](a, value(second))))
            return '%s%d %d' % (letter, signed(first), signed(second)), answer
        if letter == 'd':
            digits = self.random.randrange(12)
            return 'd%d %d' % (signed(first), digits), fixed(a, digits)
        return '%s%d' % (letter, signed(first)), OF_ONE[letter](a)


def tried(program, kinds, part):
    """What differs in a part, by its seed and its number of cases: the first case of them, or None."""
    seed, count = part
    maker = Maker(seed, kinds)
    cases = [maker.case() for _ in range(count)]
    sources = [('conformance', 'floats.sa'), ('lib', 'flt.sa'), ('lib', 'flt_text.sa')]
    files = {source[-1]: report.text_of(*source).encode() for source in sources}
    given = ''.join(case + '\n' for case, _ in cases).encode()
    with report.folder_with(files) as folder:
        left = report.run([program, 'run', '--room', ROOM, *files], folder, SECONDS, input=given)
    answers = left.output.decode().split('\n')
    for (case, wanted), answer in zip(cases, answers):
        if answer != str(wanted):
            return '%s: expected %s, and came %s' % (case, wanted, answer)
    return report.difference(report.Left(''.join('%s\n' % wanted for _, wanted in cases).encode()), left)


def try_all(program, told, count=COUNT, seed=1, kinds=KINDS):
    """Tries so many cases."""
    parts = [(seed * 1000003 + start, min(PART, count - start)) for start in range(0, count, PART)]
    told.part('FLT beside the machine, %d cases' % count, len(parts))
    for (start, size), wrong in zip(parts, report.side_by_side(functools.partial(tried, program, kinds), parts)):
        told.count('floats.py: %d cases of the seed %d' % (size, start), wrong)


def main():
    words = argparse.ArgumentParser(description=__doc__, formatter_class=argparse.RawDescriptionHelpFormatter)
    words.add_argument('program')
    words.add_argument('--count', type=int, default=COUNT)
    words.add_argument('--seed', type=int, default=1)
    words.add_argument('--kinds', default=KINDS)
    given = words.parse_args()
    told = report.Report()
    try_all(os.path.abspath(given.program), told, given.count, given.seed, given.kinds)
    return told.close()


if __name__ == '__main__':
    sys.exit(main())
