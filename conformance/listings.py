#!/usr/bin/env python3
"""listings.py PROGRAM [--count N] [--seed S] [--only WORD]

Compares `PROGRAM listing` and `PROGRAM assemble` with the form of listings.

- Each row of a table has a module and its listing: `listing` prints this one, and `assemble` of it writes a module with the same
  listing. A second writer of listings, in this script, gives the table's texts too.
- Each text of a second table is no listing, and `assemble` names the line with which that is clear.
- The lines of an iter that docs/WEBASSEMBLY.md shows stand in the listing of its example.
- N random modules, and N with some bytes changed, have the listing that the second writer gives them, where the reader of the
  format in this folder finds a module in them; else `listing` calls them malformed.
- N of these listings with some bytes changed are taken exactly where the second writer writes that text of the module that
  `assemble` made of it.

--only takes the rows whose names hold a word, and no random modules. Prints each difference, and a last line 'N passed, M
failed'; the status is 1 where any failed."""
import argparse
import os
import re
import sys

import maker
import report
from binary import (EMPTY, I32, I64, PREAMBLE, Module, code, counted, func_type, i32_const, i64_const, indexed, limits, section,
                    unsigned, vector)
from reader import MOST_LOCALS, MOST_NESTED, WITH_ADDRESS, Malformed, Reader

MALFORMED = NO_LISTING = 126
VALUE_NAMES = {0x7f: 'i32', 0x7e: 'i64'}
KINDS = ['func', 'table', 'memory', 'global']

COMPARISONS = 'eqz eq ne lt_s lt_u gt_s gt_u le_s le_u ge_s ge_u'.split()
OPERATORS = 'clz ctz popcnt add sub mul div_s div_u rem_s rem_u and or xor shl shr_s shr_u rotl rotr'.split()
NAMES = {
    0x00: 'unreachable', 0x01: 'nop', 0x02: 'block', 0x03: 'loop', 0x04: 'if', 0x05: 'else', 0x0b: 'end', 0x0c: 'br',
    0x0d: 'br_if', 0x0e: 'br_table', 0x0f: 'return', 0x10: 'call', 0x11: 'call_indirect', 0x1a: 'drop', 0x1b: 'select',
    0x20: 'local.get', 0x21: 'local.set', 0x22: 'local.tee', 0x23: 'global.get', 0x24: 'global.set', 0x28: 'i32.load',
    0x29: 'i64.load', 0x2c: 'i32.load8_s', 0x2d: 'i32.load8_u', 0x2e: 'i32.load16_s', 0x2f: 'i32.load16_u',
    0x30: 'i64.load8_s', 0x31: 'i64.load8_u', 0x32: 'i64.load16_s', 0x33: 'i64.load16_u', 0x34: 'i64.load32_s',
    0x35: 'i64.load32_u', 0x36: 'i32.store', 0x37: 'i64.store', 0x3a: 'i32.store8', 0x3b: 'i32.store16', 0x3c: 'i64.store8',
    0x3d: 'i64.store16', 0x3e: 'i64.store32', 0x3f: 'memory.size', 0x40: 'memory.grow', 0x41: 'i32.const', 0x42: 'i64.const',
    **{0x45 + place: 'i32.' + name for place, name in enumerate(COMPARISONS)},
    **{0x50 + place: 'i64.' + name for place, name in enumerate(COMPARISONS)},
    **{0x67 + place: 'i32.' + name for place, name in enumerate(OPERATORS)},
    **{0x79 + place: 'i64.' + name for place, name in enumerate(OPERATORS)},
    0xa7: 'i32.wrap_i64', 0xac: 'i64.extend_i32_s', 0xad: 'i64.extend_i32_u',
}
TAKES_NUMBER = {0x0c, 0x0d, 0x10, 0x11, *range(0x20, 0x25)}


# ---- the second writer

class Lister(Reader):
    """Reads a module, and writes its listing: the lines of each section, by the section's number."""

    def __init__(self, spelled):
        super().__init__(spelled)
        self.parts = {number: [] for number in range(12)}

    def digits(self):
        """Counted bytes, in hexadecimal digits."""
        return self.take(self.unsigned()).hex() or '-'

    def text_of_name(self):
        """A name, in hexadecimal digits."""
        return self.name().encode().hex() or '-'

    def limit_words(self):
        return [str(number) for number in self.limits() if number is not None]

    def table_words(self):
        if self.byte() != 0x70:
            raise Malformed('no function reference')
        return self.limit_words()

    def value_word(self):
        return VALUE_NAMES[self.value_type()]

    def global_words(self):
        val = self.value_word()
        mutable = self.byte()
        if mutable > 1:
            raise Malformed('unknown mutability')
        return [val, ['const', 'var'][mutable]]

    def value_type(self):
        """The byte of a value's type."""
        ty = self.byte()
        if ty not in VALUE_NAMES:
            raise Malformed('no integer type')
        return ty

    def initial_words(self):
        opcode = self.byte()
        if opcode not in (0x41, 0x42, 0x23):
            raise Malformed('no initial expression')
        if opcode == 0x23:
            words = ['get', str(self.unsigned())]
        else:
            bits = 32 if opcode == 0x41 else 64
            words = ['i%d' % bits, str(self.signed(bits) % 2 ** bits)]
        if self.byte() != 0x0b:
            raise Malformed('no initial expression')
        return words

    # Lines of sections

    def type_line(self):
        if self.byte() != 0x60:
            raise Malformed('no function type')
        params, results = self.vector(self.value_word), self.vector(self.value_word)
        return ['type', *params, '->', *results]

    def import_line(self):
        module, name, kind = self.text_of_name(), self.text_of_name(), self.byte()
        if kind > 3:
            raise Malformed('unknown kind')
        words = [lambda: [str(self.unsigned())], self.table_words, self.limit_words, self.global_words][kind]()
        return ['import', module, name, KINDS[kind], *words]

    def export_line(self):
        name, kind = self.text_of_name(), self.byte()
        if kind > 3:
            raise Malformed('unknown kind')
        return ['export', name, KINDS[kind], str(self.unsigned())]

    def elem_line(self):
        table, offset = str(self.unsigned()), self.initial_words()
        return ['elem', table, *offset, *map(str, self.vector(self.unsigned))]

    def data_line(self):
        memory, offset = str(self.unsigned()), self.initial_words()
        return ['data', memory, *offset, self.digits()]

    # Functions

    def code(self, ty):
        """The lines of a function: its type and its locals, and its body."""
        runs = self.vector(lambda: (self.unsigned(), self.value_word()))
        if sum(count for count, _ in runs) > MOST_LOCALS:
            raise Malformed('too many locals')
        self.parts[10].append(['func', str(ty), *(word for count, word in runs for _ in range(count))])
        self.body(self.parts[10])

    def body(self, lines):
        """The lines of instructions up to the last `end`. `open_` has the opcodes of the open blocks, each with the place of its
        `else` where it has one."""
        open_ = [(0x02, None)]
        while open_:
            opcode = self.byte()
            if opcode in (0x02, 0x03, 0x04):
                if len(open_) > MOST_NESTED:
                    raise Malformed('nested too deep')
                open_.append((opcode, None))
                result = self.block_type()
                lines.append([NAMES[opcode]] + ([] if result == EMPTY else [VALUE_NAMES[result]]))
            elif opcode == 0x05:
                if open_[-1][0] != 0x04:
                    raise Malformed('else without if')
                open_[-1] = 0x05, len(lines)
                lines.append(['else'])
            elif opcode == 0x0b:
                if open_.pop()[1] == len(lines) - 1:
                    lines.pop()             # the `else` of an empty branch
                lines.append(['end'])
            else:
                lines.append(self.instruction(opcode))

    def instruction(self, opcode):
        """The words of an instruction that holds no others."""
        if opcode == 0x0e:
            labels = self.vector(self.unsigned)
            return ['br_table', *map(str, labels), str(self.unsigned())]
        if opcode in (0x41, 0x42):
            bits = 32 if opcode == 0x41 else 64
            return [NAMES[opcode], str(self.signed(bits) % 2 ** bits)]
        if opcode not in NAMES:
            raise Malformed('an opcode outside the profile')
        words = [NAMES[opcode]]
        if opcode in WITH_ADDRESS:
            words += [str(self.unsigned()), str(self.unsigned())]
        elif opcode in TAKES_NUMBER:
            words.append(str(self.unsigned()))
        if opcode in (0x11, 0x3f, 0x40):
            self.reserved()
        return words

    def section(self, number):
        """The content of a section by its id."""
        lines = {
            1: self.type_line, 2: self.import_line, 4: lambda: ['table', *self.table_words()],
            5: lambda: ['memory', *self.limit_words()], 6: lambda: ['global', *self.global_words(), *self.initial_words()],
            7: self.export_line, 9: self.elem_line, 11: self.data_line}
        if number in lines:
            self.parts[number] = self.vector(lines[number])
        elif number == 8:
            self.parts[number] = [['start', str(self.unsigned())]]
        else:
            {0: self.custom, 3: self.functions, 10: self.codes}[number]()

    def listing(self):
        """The listing of the module."""
        self.module()
        order = [1, 2, 10, 4, 5, 6, 7, 8, 9, 11]
        return ''.join(' '.join(words) + '\n' for number in order for words in self.parts[number]).encode()


def listing_of(spelled):
    """The listing of the module that some bytes spell, or None where they spell none."""
    try:
        return Lister(spelled).listing()
    except Malformed:
        return None


# ---- the tables

def module(body=None, locals_=(), **fields):
    """A module with these spelled entries. With a body it has a function of type 0."""
    made = Module()
    for name, value in fields.items():
        setattr(made, name, value)
    if body is not None:
        made.func(0, body, locals_)
    return made.spelled()


def of_body(name, body, *lines):
    """A row of a function's body."""
    return name, module(body), ''.join(line + '\n' for line in ['func 0', *lines, 'end'])


def rows():
    """Modules and their listings, with a name of each."""
    yield 'the empty module', PREAMBLE, ''
    yield 'a type without arguments', module(types=[func_type([], [])]), 'type ->\n'
    yield 'a type with both', module(types=[func_type([I32, I64], [I64])]), 'type i32 i64 -> i64\n'
    yield 'a type of several results', module(types=[func_type([], [I32, I32])]), 'type -> i32 i32\n'
    for one, other, words in ((b'env', b'put', '656e76 707574'), (b'', b'', '- -'), ('é'.encode(), b'\0', 'c3a9 00')):
        yield 'the names ' + words, module(imports=[counted(one) + counted(other) + b'\0' + unsigned(7)]), \
            'import %s func 7\n' % words
    for kind, words in ((b'\1\x70' + limits(1), 'table 1'), (b'\1\x70' + limits(1, 2), 'table 1 2'),
                        (b'\2' + limits(7), 'memory 7'), (b'\2' + limits(0, 65536), 'memory 0 65536'),
                        (b'\3\x7f\0', 'global i32 const'), (b'\3\x7e\1', 'global i64 var')):
        yield 'an import of ' + words, module(imports=[counted(b'a') + counted(b'b') + kind]), 'import 61 62 %s\n' % words
    yield 'a function', module(b''), 'func 0\nend\n'
    yield 'locals', module(b'', [(2, I32), (0, I64), (1, I64), (1, I32)]), 'func 0 i32 i32 i64 i32\nend\n'
    yield 'two functions', two_functions(), 'func 0\nend\nfunc 4294967295\nnop\nend\n'
    yield 'a table', module(tables=[b'\x70' + limits(3)]), 'table 3\n'
    yield 'a bounded table', module(tables=[b'\x70' + limits(3, 4294967295)]), 'table 3 4294967295\n'
    yield 'a memory', module(memories=[limits(1)]), 'memory 1\n'
    yield 'a bounded memory', module(memories=[limits(1, 0)]), 'memory 1 0\n'
    yield 'a global', module(globals=[b'\x7f\0' + i32_const(-1) + b'\x0b']), 'global i32 const i32 4294967295\n'
    yield 'a global of 64 bits', module(globals=[b'\x7e\1' + i64_const(-1) + b'\x0b']), \
        'global i64 var i64 18446744073709551615\n'
    yield 'a global by another', module(globals=[b'\x7f\0\x23' + unsigned(5) + b'\x0b']), 'global i32 const get 5\n'
    for number, kind in enumerate(KINDS):
        yield 'an export of a ' + kind, module(exports=[counted(b'x') + bytes([number]) + unsigned(9)]), 'export 78 %s 9\n' % kind
    yield 'a start function', module(start=3), 'start 3\n'
    yield 'elements', module(elems=[unsigned(0) + i32_const(1) + b'\x0b' + vector([unsigned(2), unsigned(300)])]), \
        'elem 0 i32 1 2 300\n'
    yield 'no elements', module(elems=[unsigned(1) + b'\x23\0\x0b' + vector([])]), 'elem 1 get 0\n'
    yield 'data', module(data=[unsigned(0) + i32_const(8) + b'\x0b' + counted(b'\0\xffA')]), 'data 0 i32 8 00ff41\n'
    yield 'no data', module(data=[unsigned(0) + i64_const(8) + b'\x0b' + counted(b'')]), 'data 0 i64 8 -\n'
    yield from rows_of_instructions()


def two_functions():
    """Two functions, one of the greatest type number."""
    types = section(3, vector([unsigned(0), unsigned(2 ** 32 - 1)]))
    return PREAMBLE + types + section(10, vector([code([], b''), code([], b'\1')]))


def rows_of_instructions():
    """A row for each form of an instruction."""
    yield of_body('blocks', b'\x02\x40\x0b\x03\x7f\x0b\x02\x7e\x01\x0b',
                  'block', 'end', 'loop i32', 'end', 'block i64', 'nop', 'end')
    yield of_body('an if', b'\x04\x40\x01\x0b', 'if', 'nop', 'end')
    yield of_body('an if with else', b'\x04\x7f\x05\x01\x0b', 'if i32', 'else', 'nop', 'end')
    yield of_body('an else of nothing', b'\x04\x40\x01\x05\x0b', 'if', 'nop', 'end')
    yield of_body('an else that holds one', b'\x04\x40\x05\x04\x40\x05\x01\x0b\x0b',
                  'if', 'else', 'if', 'else', 'nop', 'end', 'end')
    yield of_body('labels', b'\x0e' + vector([unsigned(1), unsigned(2)]) + unsigned(3), 'br_table 1 2 3')
    yield of_body('a default alone', b'\x0e' + vector([]) + unsigned(3), 'br_table 3')
    yield of_body('i32.const', i32_const(-2) + i32_const(0), 'i32.const 4294967294', 'i32.const 0')
    yield of_body('i64.const', i64_const(-2) + i64_const(2 ** 63 - 1),
                  'i64.const 18446744073709551614', 'i64.const 9223372036854775807')
    for opcode, name in sorted(NAMES.items()):
        if opcode in WITH_ADDRESS:
            yield of_body(name, bytes([opcode]) + unsigned(2) + unsigned(65536), name + ' 2 65536')
        elif opcode == 0x11:
            yield of_body(name, indexed(opcode, 200) + b'\0', name + ' 200')
        elif opcode in TAKES_NUMBER:
            yield of_body(name, indexed(opcode, 200), name + ' 200')
        elif opcode in (0x3f, 0x40):
            yield of_body(name, bytes([opcode, 0]), name)
        elif opcode not in (0x02, 0x03, 0x04, 0x05, 0x0b, 0x0e, 0x41, 0x42):
            yield of_body(name, bytes([opcode]), name)
    deep = b'\x02\x40' * MOST_NESTED + b'\x0b' * MOST_NESTED
    yield of_body('a thousand open blocks', deep, *['block'] * MOST_NESTED, *['end'] * MOST_NESTED)


FUNC = 'func 0\n'
# Texts that are no listings: a name, the text, and the line that `assemble` names.
REFUSED = [
    ('a text without a line feed', 'type ->', 1),
    ('a line that is not ended', 'type ->\ntype', 2),
    ('an empty line', '\n', 1),
    ('an empty line behind others', 'type ->\n\n', 2),
    ('a blank line', ' \n', 1),
    ('a blank at the front', ' type ->\n', 1),
    ('a blank at the end', 'type -> \n', 1),
    ('two blanks', 'type  ->\n', 1),
    ('a tab', 'type\t->\n', 1),
    ('a carriage return', 'type ->\r\n', 1),
    ('an unknown word', 'kind ->\n', 1),
    ('a word in capitals', 'TYPE ->\n', 1),
    ('a byte beyond ASCII', 'typé ->\n', 1),
    ('a type without an arrow', 'type i32\n', 1),
    ('a type with two arrows', 'type -> -> i32\n', 1),
    ('a float type', 'type f32 ->\n', 1),
    ('an import of nothing', 'import 61 62\n', 1),
    ('an import of another kind', 'import 61 62 tag 0\n', 1),
    ('an import of a function without a number', 'import 61 62 func\n', 1),
    ('an import with a name too few', 'import 61 func 0\n', 1),
    ('a name of an odd digit', 'export 6 func 0\n', 1),
    ('a name in capital digits', 'export 6A func 0\n', 1),
    ('a name of other letters', 'export xy func 0\n', 1),
    ('a name that is no UTF-8', 'export ff func 0\n', 1),
    ('an empty name without its dash', 'export  func 0\n', 1),
    ('two dashes', 'export -- func 0\n', 1),
    ('an export without a kind', 'export 61 0\n', 1),
    ('an export of another kind', 'export 61 type 0\n', 1),
    ('a leading zero', 'type ->\nfunc 00\nend\n', 2),
    ('a plus', 'func +1\nend\n', 1),
    ('a minus', 'func -1\nend\n', 1),
    ('a hexadecimal number', 'func 0x1\nend\n', 1),
    ('a number of 33 bits', 'func 4294967296\nend\n', 1),
    ('a number of 65 bits', FUNC + 'i64.const 18446744073709551616\nend\n', 2),
    ('a constant of 33 bits', FUNC + 'i32.const 4294967296\nend\n', 2),
    ('a function without a type', 'func\nend\n', 1),
    ('a local of another type', 'func 0 f64\nend\n', 1),
    ('too many locals', 'func 0' + ' i32' * (MOST_LOCALS + 1) + '\nend\n', 1),
    ('a function without an end', FUNC, 2),
    ('a function whose last line is not ended', FUNC + 'end', 2),
    ('an end too much', FUNC + 'end\nend\n', 3),
    ('an end with a word', FUNC + 'end 0\n', 2),
    ('a block that is not ended', FUNC + 'block\nend\n', 4),
    ('a block of two results', FUNC + 'block i32 i32\nend\nend\n', 2),
    ('a block of another type', FUNC + 'block f32\nend\nend\n', 2),
    ('an else of a block', FUNC + 'block\nelse\nend\nend\n', 3),
    ('an else of a function', FUNC + 'else\nend\n', 2),
    ('an else of nothing', FUNC + 'if\nelse\nend\nend\n', 4),
    ('a second else', FUNC + 'if\nelse\nnop\nelse\nnop\nend\nend\n', 5),
    ('an instruction with a number too much', FUNC + 'nop 0\nend\n', 2),
    ('an instruction with a number too few', FUNC + 'br\nend\n', 2),
    ('an unknown instruction', FUNC + 'f32.add\nend\n', 2),
    ('a load without an offset', FUNC + 'i32.load 2\nend\n', 2),
    ('a load with three numbers', FUNC + 'i32.load 2 0 0\nend\n', 2),
    ('a br_table without a default', FUNC + 'br_table\nend\n', 2),
    ('a call_indirect with a table', FUNC + 'call_indirect 0 0\nend\n', 2),
    ('an item inside a function', FUNC + 'type ->\nend\n', 2),
    ('an instruction outside of one', 'nop\n', 1),
    ('a table without limits', 'table\n', 1),
    ('a table with three limits', 'table 1 2 3\n', 1),
    ('a memory without limits', 'memory\n', 1),
    ('a global without a value', 'global i32 const\n', 1),
    ('a global that is neither', 'global i32 let i32 0\n', 1),
    ('a global with a value too much', 'global i32 const i32 0 0\n', 1),
    ('an initial value of another kind', 'global i32 const f32 0\n', 1),
    ('an initial value of 33 bits', 'global i32 const i32 4294967296\n', 1),
    ('a start without a number', 'start\n', 1),
    ('two starts', 'start 0\nstart 0\n', 2),
    ('elements without an offset', 'elem 0\n', 1),
    ('elements with a word', 'elem 0 i32 0 x\n', 1),
    ('data without bytes', 'data 0 i32 0\n', 1),
    ('data of two words', 'data 0 i32 0 00 00\n', 1),
    ('a type behind an import', 'import - - func 0\ntype ->\n', 2),
    ('an import behind a function', FUNC + 'end\nimport - - func 0\n', 3),
    ('a function behind a table', 'table 0\n' + FUNC + 'end\n', 2),
    ('a table behind a memory', 'memory 0\ntable 0\n', 2),
    ('a memory behind a global', 'global i32 const i32 0\nmemory 0\n', 2),
    ('a global behind an export', 'export - func 0\nglobal i32 const i32 0\n', 2),
    ('an export behind the start', 'start 0\nexport - func 0\n', 2),
    ('a start behind elements', 'elem 0 i32 0\nstart 0\n', 2),
    ('elements behind data', 'data 0 i32 0 -\nelem 0 i32 0\n', 2),
    ('a block too deep', FUNC + 'block\n' * (MOST_NESTED + 1) + 'end\n' * (MOST_NESTED + 1) + 'end\n', MOST_NESTED + 2),
]


# ---- the comparison

class Comparison:
    """The program, the folder in which it runs, and the report."""

    def __init__(self, program, folder, told):
        self.program, self.folder, self.told = program, folder, told

    def place(self, name):
        return os.path.join(self.folder, name)

    def ran(self, words, **files):
        """What the program left, run on these files."""
        for name, content in files.items():
            with open(self.place(name), 'wb') as file:
                file.write(content)
        return report.run([self.program, *words], self.folder)

    def listing(self, name, spelled, wanted):
        """The listing of a module, or None where it is malformed."""
        left = self.ran(['listing', 'm'], m=spelled)
        right = report.Left(lines=b'm: malformed\n', status=MALFORMED) if wanted is None else report.Left(wanted)
        self.told.count('listing, ' + name, report.difference(right, left))

    def assembled(self, text):
        """What `assemble` left, and the module that it wrote, or None."""
        if os.path.exists(self.place('n')):
            os.remove(self.place('n'))
        left = self.ran(['assemble', '-o', 'n', 'l'], l=text)
        if not os.path.exists(self.place('n')):
            return left, None
        with open(self.place('n'), 'rb') as file:
            return left, file.read()

    def assemble(self, name, text):
        """A listing is taken, and what is written of it has the same listing."""
        left, spelled = self.assembled(text)
        wrong = report.difference(report.Left(), left)
        if wrong is None and (spelled is None or listing_of(spelled) != text):
            wrong = 'the module has another listing: %s' % (spelled and spelled.hex())
        self.told.count('assemble, ' + name, wrong)

    def refuse(self, name, text, line):
        """A text is refused, by the line."""
        left, spelled = self.assembled(text)
        wrong = report.difference(report.Left(lines=b'l:%d: no listing\n' % line, status=NO_LISTING), left)
        self.told.count('no listing, ' + name, wrong or (spelled is not None and 'a module was written' or None))

    def changed(self, name, text):
        """A text that may be a listing is taken where the module that is written has this one."""
        left, spelled = self.assembled(text)
        wrong = None
        if spelled is not None and listing_of(spelled) != text:
            wrong = 'it was taken, and the module has another listing: %r' % text
        elif spelled is None and left.status != NO_LISTING:
            wrong = 'the status is %d: %r' % (left.status, text)
        self.told.count('changed listing, ' + name, wrong)


def try_table(comparison, word):
    """The rows whose names hold the word."""
    for name, spelled, text in rows():
        if word in name:
            own = listing_of(spelled)
            comparison.told.count('the second writer, ' + name, None if own == text.encode() else 'it writes %r' % own)
            comparison.listing(name, spelled, text.encode())
            comparison.assemble(name, text.encode())
    for name, text, line in REFUSED:
        if word in name:
            comparison.refuse(name, text.encode(), line)


def example():
    """The example of the page: its source, the lines of its iter, and those of a call of it."""
    part = report.text_of('docs', 'WEBASSEMBLY.md').split('### An iter, line by line\n')[1].split('\n## ')[0]
    source, *blocks = re.findall(r'^```\n(.*?)^```$', part, re.M | re.S)
    *of_iter, of_call = [re.sub(r'^ +', '', block, flags=re.M) for block in blocks]
    return source, ''.join(of_iter), of_call


def try_page(comparison):
    """What the page shows of a listing."""
    source, of_iter, of_call = example()
    comparison.ran(['build', '-o', 'm', 'f.sa'], **{'f.sa': source.encode()})
    listing = comparison.ran(['listing', 'm']).output.decode()
    for name, lines in (('the iter', of_iter), ('the call', of_call)):
        wrong = None if '\n' + lines in listing else 'these lines aren\'t in the listing: %.300r' % lines
        comparison.told.count('the page of the modules, ' + name, wrong)


def try_random(comparison, rng, count):
    """Random modules and changed ones, and changed listings."""
    for place in range(count):
        name = 'module %d' % place
        spelled = maker.valid_module(rng)
        text = listing_of(spelled)
        comparison.listing(name, spelled, text)
        comparison.assemble(name, text)
        comparison.changed(name, maker.mutated(rng, text))
        spelled = maker.mutated(rng, maker.small_module(rng))
        comparison.listing('changed ' + name, spelled, listing_of(spelled))


def try_all(program, told, word='', count=40, seed=1):
    """Makes all comparisons, or with a word those of the rows that have it."""
    told.part('listings', 0)
    with report.folder_with({}) as folder:
        comparison = Comparison(program, folder, told)
        try_table(comparison, word)
        if not word:
            try_page(comparison)
            try_random(comparison, maker.seeded(seed), count)


def main():
    words = argparse.ArgumentParser(description=__doc__, formatter_class=argparse.RawDescriptionHelpFormatter)
    words.add_argument('program')
    words.add_argument('--count', type=int, default=40)
    words.add_argument('--seed', type=int, default=1)
    words.add_argument('--only', default='')
    given = words.parse_args()
    told = report.Report()
    try_all(os.path.abspath(given.program), told, given.only, given.count, given.seed)
    return told.close()


if __name__ == '__main__':
    sys.exit(main())
