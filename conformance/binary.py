"""Writes modules of WebAssembly in the binary format, in the integer part of the Core Specification 1.0 (chapter 5)."""

I32, I64 = 0x7f, 0x7e
EMPTY = 0x40            # the type of a block without a result
PREAMBLE = b'\0asm\1\0\0\0'


def unsigned(number):
    """The shortest LEB128 of a number without a sign."""
    spelled = bytearray()
    while number >= 128:
        spelled.append(number % 128 + 128)
        number //= 128
    spelled.append(number)
    return bytes(spelled)


def signed(number):
    """The shortest LEB128 of a number with a sign."""
    spelled = bytearray()
    while not -64 <= number < 64:
        spelled.append(number % 128 + 128)
        number //= 128
    spelled.append(number % 128)
    return bytes(spelled)


def counted(content):
    """Bytes behind their number, as a name is spelled."""
    return unsigned(len(content)) + content


def vector(entries):
    """Spelled entries behind their number."""
    return unsigned(len(entries)) + b''.join(entries)


def section(number, content):
    """A section: its id, its length and its content."""
    return bytes([number]) + counted(content)


def func_type(params, results):
    """A function type."""
    return b'\x60' + counted(bytes(params)) + counted(bytes(results))


def limits(least, most=None):
    """Limits of a memory or a table."""
    return b'\0' + unsigned(least) if most is None else b'\1' + unsigned(least) + unsigned(most)


def i32_const(number):
    """The instruction that gives 32 bits."""
    return b'\x41' + signed((number + 2 ** 31) % 2 ** 32 - 2 ** 31)


def i64_const(number):
    """The instruction that gives 64 bits."""
    return b'\x42' + signed((number + 2 ** 63) % 2 ** 64 - 2 ** 63)


def indexed(opcode, number):
    """An instruction that is an opcode and a number."""
    return bytes([opcode]) + unsigned(number)


def code(locals_, body):
    """A code entry: runs of locals as pairs of a count and a type, and a body without its last `end`."""
    runs = vector([unsigned(count) + bytes([ty]) for count, ty in locals_])
    return counted(runs + body + b'\x0b')


class Module:
    """A module under construction. Each field but `start` holds spelled entries."""

    def __init__(self):
        self.types, self.imports, self.funcs, self.tables, self.memories = [], [], [], [], []
        self.globals, self.exports, self.elems, self.codes, self.data = [], [], [], [], []
        self.start = None

    def import_func(self, name, ty, module=b'env'):
        """Imports a function of a type by its number."""
        self.imports.append(counted(module) + counted(name) + b'\0' + unsigned(ty))

    def func(self, ty, body=b'', locals_=()):
        """Adds a function of a type by its number."""
        self.funcs.append(unsigned(ty))
        self.codes.append(code(locals_, body))

    def export_func(self, name, number):
        """Exports a function by its number."""
        self.exports.append(counted(name) + b'\0' + unsigned(number))

    def sections(self):
        """The module's sections in order. Those without entries are left out."""
        start = [] if self.start is None else [unsigned(self.start)]
        fields = [self.types, self.imports, self.funcs, self.tables, self.memories, self.globals, self.exports, start,
                  self.elems, self.codes, self.data]
        for number, entries in enumerate(fields, 1):
            if entries:
                yield section(number, entries[0] if entries is start else vector(entries))

    def spelled(self):
        """The module's bytes."""
        return PREAMBLE + b''.join(self.sections())
