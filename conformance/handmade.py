"""Modules that are written by hand, each with the end that the definition gives it."""
from binary import (I32, I64, PREAMBLE, Module, counted, func_type, i32_const, i64_const, indexed, limits, section, unsigned,
                    vector)

TYPES = [([I32], []), ([], [I32]), ([I32, I32], []), ([], []), ([I32], [I32])]
PUT, GET, STOP, MAIN = 0, 1, 2, 3
SMALLEST = bytes.fromhex('0061736d0100000001040160000003020100070801046d61696e00000a040102000b')


class Row:
    """A module, how its run ends, and what it writes. `v8` and `wabt` say whether these tools judge it alike; where they
    don't, the name tells why, or the rule is the profile's own."""

    def __init__(self, name, module, end, output=b'', given=b'', fuel=None, steps=None, v8=True, wabt=True):
        self.name, self.end, self.output, self.given = name, end, output, given
        self.module = module.spelled() if isinstance(module, Module) else module
        self.fuel, self.steps, self.v8, self.wabt = fuel, steps, v8, wabt

    def words(self):
        """The options of `exec`."""
        fuel = [] if self.fuel is None else ['--fuel', str(self.fuel)]
        return fuel + ([] if self.steps is None else ['--stats'])


def program(body=b'', result=False, locals_=(), memory=True):
    """A module with the host's three functions and a `main` of this body, which is function 3."""
    module = Module()
    module.types = [func_type(params, results) for params, results in TYPES]
    for name, ty in ((b'put', 0), (b'get', 1), (b'stop', 2)):
        module.import_func(name, ty)
    module.func(1 if result else 3, body, locals_)
    module.export_func(b'main', MAIN)
    if memory:
        module.memories = [limits(1, 2)]
    return module


def put(byte):
    """Instructions that write a byte."""
    return i32_const(byte) + indexed(0x10, PUT)


def bare(**fields):
    """A module whose type 0 is [] -> [] and whose `main` does nothing, with other fields."""
    module = Module()
    module.types = [func_type([], [])]
    module.func(0)
    module.export_func(b'main', 0)
    for name, value in fields.items():
        setattr(module, name, value)
    return module


def format_rows():
    """The binary format."""
    front, code = SMALLEST[:-6], SMALLEST[-6:]
    rest = SMALLEST[14:]
    yield Row('a main that does nothing', SMALLEST, 'done 0', steps=0)
    yield Row('a last byte that is cut off', SMALLEST[:-1], 'malformed')
    yield Row('a byte behind the last section', SMALLEST + b'\0', 'malformed')
    yield Row('a preamble alone', SMALLEST[:8], 'unlinked 0')
    yield Row('no bytes', b'', 'malformed')
    yield Row('another version', b'\0asm\2\0\0\0' + SMALLEST[8:], 'malformed')
    yield Row('a count in two bytes', PREAMBLE + bytes.fromhex('01058100600000') + rest, 'done 0')
    yield Row('a count in six bytes', PREAMBLE + bytes.fromhex('0109818080808000600000') + rest, 'malformed')
    yield Row('a count with a bit too much', PREAMBLE + bytes.fromhex('01088180808010600000') + rest, 'malformed')
    yield Row('sections out of order', PREAMBLE + section(3, b'\1\0') + section(1, b'\1\x60\0\0') + code, 'malformed')
    yield Row('a section that comes twice', SMALLEST[:14] + SMALLEST[8:], 'malformed')
    yield Row('a section of a vector that is empty', front[:14] + section(2, b'\0') + front[14:] + code, 'done 0')
    yield Row('a function without a body', front, 'malformed')
    yield Row('an unknown section', SMALLEST + section(13, b''), 'malformed', v8=False)
    yield Row('a data count, which came after 1.0', front + section(12, b'\0') + code, 'malformed', v8=False)
    yield Row('a custom section at the end', SMALLEST + section(0, counted(b'x') + b'any'), 'done 0')
    yield Row('a custom section whose name is no UTF-8', SMALLEST + section(0, counted(b'\xff')), 'malformed')
    yield Row('a custom section whose name is too long', SMALLEST + section(0, b'\5abc'), 'malformed')
    yield Row('a custom section with nonsense about names', SMALLEST + section(0, counted(b'name') + b'\xff\xff'), 'done 0',
              wabt=False)
    yield Row('an export whose name is no UTF-8', bare(exports=[counted(b'\xc0\x80') + b'\0\0']), 'malformed')
    yield Row('a float type', bare(types=[func_type([], []), func_type([0x7d], [])]), 'malformed', v8=False, wabt=False)
    yield Row('a float constant', program(b'\x43\0\0\0\0\x1a'), 'malformed', v8=False, wabt=False)
    yield Row('an opcode that came after 1.0', program(i32_const(1) + b'\xc0\x1a'), 'malformed', v8=False)
    yield Row('a block type in two bytes', program(b'\x02\xc0\x7f\x0b'), 'malformed', v8=False, wabt=False)
    yield Row('a reserved byte in two bytes', program(b'\x3f\x80\x00\x1a'), 'malformed')
    yield Row('a constant with bits that are no sign', program(b'\x41\x80\x80\x80\x80\x10\x1a'), 'malformed')
    yield Row('an else without an if', program(b'\x05'), 'malformed')
    yield Row('a body that ends too early', bare(codes=[counted(b'\0\x02\x40\x0b')]), 'malformed', wabt=False)
    yield Row('an initial value of two constants',
              bare(globals=[bytes([I32, 0]) + i32_const(1) + i32_const(1) + b'\x0b']), 'malformed')
    yield Row('an empty initial value', bare(globals=[bytes([I32, 0, 0x0b])]), 'malformed')
    yield Row('an initial value without an end', bare(globals=[bytes([I32, 0]) + i32_const(1)]), 'malformed', wabt=False)


def limit_rows():
    """The profile's limits."""
    nested = b'\x02\x40' * 1000 + b'\x0b' * 1000
    yield Row('1,000 nested blocks', program(nested), 'done 0', steps=1000)
    yield Row('1,001 nested blocks', program(b'\x02\x40' + nested + b'\x0b'), 'malformed', v8=False, wabt=False)
    yield Row('1,001 nested blocks that are not reached', program(b'\x0f\x02\x40' + nested + b'\x0b'), 'malformed', v8=False,
              wabt=False)
    yield Row('1,000,000 locals', program(locals_=[(999_999, I32), (1, I64)]), 'done 0', v8=False)
    yield Row('1,000,001 locals', program(locals_=[(1_000_000, I32), (1, I64)]), 'malformed', v8=False, wabt=False)
    yield Row('locals whose sum passes 32 bits', program(locals_=[(2 ** 32 - 1, I32), (2 ** 32 - 1, I32)]), 'malformed')
    yield Row('an empty run of locals', program(locals_=[(0, I64)]), 'done 0')
    yield Row('an empty run of float locals', program(locals_=[(0, 0x7d)]), 'malformed', v8=False, wabt=False)


def validity_rows():
    """Validity."""
    yield Row('an operand that is missing', program(b'\x1a'), 'invalid')
    yield Row('an operand too many', program(i32_const(1)), 'invalid')
    yield Row('an operand of another type', program(i64_const(1) + b'\x45\x1a'), 'invalid')
    yield Row('operands that are not reached', program(b'\0\x6a\x1a'), 'trap')
    yield Row('a label that is unknown', program(indexed(0x0c, 1) + indexed(0x0c, 2)), 'invalid')
    yield Row('an alignment of more than the access', program(i32_const(0) + b'\x2d\1\0\x1a'), 'invalid')
    yield Row('an alignment of 2 ^ 32', program(i32_const(0) + b'\x28\x20\0\x1a'), 'invalid')
    yield Row('a load without a memory', program(i32_const(0) + b'\x28\2\0\x1a', memory=False), 'invalid')
    yield Row('two memories', bare(memories=[limits(1), limits(1)]), 'invalid')
    yield Row('two tables', bare(tables=[b'\x70' + limits(1)] * 2), 'invalid', v8=False)
    yield Row('a memory of 65,537 pages', bare(memories=[limits(65537)]), 'invalid')
    yield Row('a minimum above the maximum', bare(memories=[limits(2, 1)]), 'invalid')
    yield Row('a type with two results', bare(types=[func_type([], []), func_type([], [I32, I32])]), 'invalid', v8=False)
    yield Row('exports of one name', bare(exports=[counted(b'main') + b'\0\0'] * 2), 'invalid')
    yield Row('a start function with a result', bare(types=[func_type([], [I32])], codes=[counted(b'\0\x41\0\x0b')], start=0),
              'invalid')
    yield Row('a write to a constant', bare(globals=[bytes([I32, 0]) + i32_const(1) + b'\x0b'],
                                            codes=[counted(b'\0' + i32_const(1) + indexed(0x24, 0) + b'\x0b')]), 'invalid')
    yield Row('a global that begins as an own one', bare(globals=[bytes([I32, 0]) + i32_const(1) + b'\x0b',
                                                                  bytes([I32, 0, 0x23, 0, 0x0b])]), 'invalid', v8=False)
    own = bare(memories=[limits(1)], globals=[bytes([I32, 0]) + i32_const(7) + b'\x0b'], data=[b'\0\x23\0\x0b' + counted(b'x')])
    yield Row('an offset that is an own global', own, 'done 0', v8=False, wabt=False)
    segment = b'\1' + i32_const(0) + b'\x0b' + counted(b'x')
    yield Row('a segment of memory 1', bare(memories=[limits(1)], data=[segment]), 'invalid', v8=False)
    labels = b'\x02\x7f\x02\x7e\0\x0e' + vector([unsigned(0)]) + unsigned(1) + b'\x0b\x1a\0\x0b\x1a'
    yield Row('labels of two types that are not reached', program(labels), 'invalid', v8=False, wabt=False)
    ill = bare(codes=[counted(b'\0\x1a\x0b')]).spelled()
    yield Row('an ill-typed function before bytes that spell nothing', ill + b'\x0b\1', 'malformed')


def link_rows():
    """Imports, `main` and segments."""
    three = program()
    yield Row('a main without a result', three, 'done 0')
    yield Row('a main that gives 300', program(i32_const(300), True), 'done 44')
    yield Row('a main that gives -1', program(i32_const(-1), True), 'done 255')
    wide = bare(types=[func_type([], [I64])], codes=[counted(b'\0\x42\0\x0b')])
    yield Row('a main that gives 64 bits', wide, 'unlinked 0', v8=False)
    yield Row('a main with an argument', bare(types=[func_type([I32], [])]), 'unlinked 0', v8=False)
    yield Row('a main that is a memory', bare(memories=[limits(1)], exports=[counted(b'main') + b'\2\0']), 'unlinked 0')
    yield Row('a main of another name', bare(exports=[counted(b'main ') + b'\0\0']), 'unlinked 0')
    host = program()
    host.exports = [counted(b'main') + b'\0' + unsigned(GET)]
    yield Row('a main that is an import', host, 'unlinked 3', v8=False)
    foreign = program()
    foreign.imports[1] = counted(b'env') + counted(b'gut') + b'\0\1'
    yield Row('a foreign import', foreign, 'unlinked 1')
    foreign.exports = []
    yield Row('a foreign import without a main', foreign, 'unlinked 1')
    other = program()
    other.imports[0] = counted(b'env') + counted(b'put') + b'\0\3'
    yield Row('a host function of another type', other, 'unlinked 0', v8=False)
    again = program()
    again.imports[2] = again.imports[0]
    yield Row('a host function that is imported twice', again, 'done 0')
    alike = program()
    alike.types.append(func_type([I32], []))
    alike.imports[0] = counted(b'env') + counted(b'put') + b'\0\5'
    yield Row('a host function of a type with the same content', alike, 'done 0')
    memory = program(memory=False)
    memory.imports.append(counted(b'env') + counted(b'memory') + b'\2' + limits(1))
    yield Row('an imported memory', memory, 'unlinked 3')


def segment_rows():
    """Segments and the start function."""
    def with_data(at, content):
        module = program(put(109))
        module.func(3, put(115))
        module.start = MAIN + 1
        module.data = [b'\0' + i32_const(at) + b'\x0b' + counted(content)]
        return module

    def with_elems(at, funcs):
        return bare(tables=[b'\x70' + limits(1)], elems=[b'\0' + i32_const(at) + b'\x0b' + vector([b'\0'] * funcs)])

    yield Row('data at the end of the memory', with_data(65535, b'x'), 'done 0', b'sm')
    yield Row('data past the end of the memory', with_data(65536, b'x'), 'segment')
    yield Row('empty data at the end of the memory', with_data(65536, b''), 'done 0', b'sm')
    yield Row('empty data past the end of the memory', with_data(65537, b''), 'segment')
    yield Row('an element at the end of the table', with_elems(0, 1), 'done 0')
    yield Row('elements past the end of the table', with_elems(0, 2), 'segment')
    yield Row('no elements at the end of the table', with_elems(1, 0), 'done 0')
    yield Row('no elements past the end of the table', with_elems(-1, 0), 'segment')
    trapping = program(put(109))
    trapping.func(3, put(115) + b'\0')
    trapping.start = MAIN + 1
    yield Row('a start function that traps', trapping, 'trap', b's')


def host_rows():
    """Input, output and the end that the module asks for."""
    copy = b'\x03\x40' + indexed(0x10, GET) + indexed(0x22, 0) + i32_const(-1) + b'\x47\x04\x40' + indexed(0x20, 0) + \
        indexed(0x10, PUT) + indexed(0x0c, 1) + b'\x0b\x0b'
    yield Row('the low eight bits are written', program(put(0x141) + put(-1)), 'done 0', b'A\xff')
    yield Row('the input is read to its end', program(copy, locals_=[(1, I32)]), 'done 0', b'a\0\xffb', b'a\0\xffb')
    end = indexed(0x10, GET) + b'\x1a' + indexed(0x10, GET)
    yield Row('behind the end of the input stands -1', program(end, True), 'done 255')
    stop = put(65) + i32_const(-1) + i32_const(7) + indexed(0x10, STOP) + put(66)
    yield Row('a stop with its two numbers', program(stop), 'stop 4294967295 at 7', b'A', steps=5)
    table = program(i32_const(72) + i32_const(0) + b'\x11\0\0')
    table.tables, table.elems = [b'\x70' + limits(1)], [b'\0' + i32_const(0) + b'\x0b' + vector([unsigned(PUT)])]
    yield Row('a host function in the table', table, 'done 0', b'H', steps=3)
    grow = i32_const(1) + b'\x40\0' + indexed(0x10, PUT)
    size = b'\x3f\0' + indexed(0x10, PUT)
    yield Row('a memory that grows up to its maximum', program(grow + grow + size), 'done 0', b'\1\xff\2')


def trap_rows():
    """Traps, and the output before them."""
    least, least_long = i32_const(-2 ** 31), i64_const(-2 ** 63)
    bodies = [
        ('unreachable', b'\0'),
        ('a quotient by zero', i32_const(1) + i32_const(0) + b'\x6d\x1a'),
        ('a remainder by zero', i64_const(1) + i64_const(0) + b'\x82\x1a'),
        ('a quotient that does not fit', least + i32_const(-1) + b'\x6d\x1a'),
        ('a quotient of 64 bits that does not fit', least_long + i64_const(-1) + b'\x7f\x1a'),
        ('a load past the end', i32_const(65533) + b'\x28\2\0\x1a'),
        ('a load whose sum passes 32 bits', i32_const(-1) + b'\x2d\0\1\x1a'),
        ('a store past the end', i32_const(65536) + i32_const(1) + b'\x3a\0\0'),
        ('an element past the end', i32_const(2) + b'\x11\3\0'),
        ('an element that was never set', i32_const(0) + b'\x11\3\0'),
        ('an element of another type', i32_const(1) + b'\x11\1\0\x1a'),
    ]
    for name, body in bodies:
        module = program(put(33) + body)
        module.tables, module.elems = [b'\x70' + limits(2)], [b'\0' + i32_const(1) + b'\x0b' + vector([unsigned(MAIN)])]
        yield Row(name, module, 'trap', b'!')
    yield Row('a remainder by -1 is zero', program(least + i32_const(-1) + b'\x6f', True), 'done 0')
    yield Row('a label past the table is the default',
              program(b'\x02\x40\x02\x40' + i32_const(9) + b'\x0e\1\0\1\x0b' + put(65) + b'\x0b' + put(66)), 'done 0', b'B')


def depth_rows():
    """Activations: main is the first, and the 40,001st is one too many."""
    for calls, end in ((39_999, 'done 0'), (40_000, 'too deep')):
        module = program(put(65) + i32_const(calls) + indexed(0x10, MAIN + 1) + b'\x1a')
        module.func(4, indexed(0x20, 0) + i32_const(1) + b'\x6b' + indexed(0x22, 0) + b'\x04\x7f' + indexed(0x20, 0) +
                    indexed(0x10, MAIN + 1) + b'\x05' + i32_const(0) + b'\x0b')
        yield Row('%d calls in one another' % calls, module, end, b'A', v8=False)
    yield Row('calls without end', program(put(65) + indexed(0x10, MAIN)), 'too deep', b'A' * 40_000, v8=False)


def fuel_rows():
    """Steps and fuel."""
    forever = program(b'\x03\x40' + indexed(0x0c, 0) + b'\x0b')
    yield Row('a loop without end', forever, 'spent', fuel=1000, steps=1000, v8=False)
    yield Row('no fuel and nothing to do', SMALLEST, 'done 0', fuel=0, steps=0)
    yield Row('fuel for the last step', program(b'\1\1'), 'done 0', fuel=2, steps=2)
    yield Row('fuel for all but the last step', program(b'\1\1'), 'spent', fuel=1, steps=1, v8=False)
    yield Row('a trap is a step', program(b'\0'), 'spent', fuel=0, steps=0, v8=False)
    yield Row('fuel for a trap', program(b'\0'), 'trap', fuel=1)
    yield Row('a stop is a step', program(i32_const(1) + i32_const(2) + indexed(0x10, STOP)), 'spent', fuel=2, steps=2,
              v8=False)
    yield Row('else and end are no steps', program(i32_const(1) + b'\x04\x40\1\x05\1\1\x0b\1'), 'done 0', steps=4)
    rounds = i32_const(3) + indexed(0x21, 0) + b'\x03\x40' + indexed(0x20, 0) + i32_const(1) + b'\x6b' + indexed(0x22, 0) + \
        indexed(0x0d, 0) + b'\x0b'
    yield Row('a loop is a step once', program(rounds, locals_=[(1, I32)]), 'done 0', steps=18)
    started = program(b'\1')
    started.func(3, b'\1\1')
    started.start = MAIN + 1
    yield Row('the steps of the start function count', started, 'done 0', steps=3)
    yield Row('output before the fuel is spent', program(put(65) + put(66)), 'spent', b'A', fuel=3, steps=3, v8=False)


def rows():
    """All of them."""
    for some in (format_rows, limit_rows, validity_rows, link_rows, segment_rows, host_rows, trap_rows, depth_rows, fuel_rows):
        yield from some()
