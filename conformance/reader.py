"""Reads modules by the binary grammar of the profile: WebAssembly Core 1.0 in its integer part, with at most 1,000 nested
blocks and 1,000,000 declared locals of a function. It shares nothing with the decoder that it judges."""

MOST_NESTED = 1000
MOST_LOCALS = 1_000_000
BODY_WITHOUT_END = 'a body whose blocks are not all ended'
INITIAL_WITHOUT_END = 'an initial expression that is not ended'
VALUE_TYPES = {0x7f, 0x7e}
BLOCK_TYPES = VALUE_TYPES | {0x40}
ALONE = {0x00, 0x01, 0x0f, 0x1a, 0x1b, *range(0x45, 0x5b), *range(0x67, 0x8b), 0xa7, 0xac, 0xad}
WITH_NUMBER = {0x0c, 0x0d, 0x10, *range(0x20, 0x25)}
WITH_ADDRESS = {0x28, 0x29, *range(0x2c, 0x38), *range(0x3a, 0x3f)}


class Malformed(Exception):
    """The bytes spell no module of the profile. `later` tells that the rule that they break is the profile's own, or one
    that later versions of the standard have changed, so that other readers may take them."""

    def __init__(self, reason, later=False):
        super().__init__(reason)
        self.later = later


def require(holds, reason, later=False):
    """Refuses the module where the condition doesn't hold."""
    if not holds:
        raise Malformed(reason, later)


class Reader:
    """A place in the bytes of a module, and what the reader noticed up to there."""

    def __init__(self, spelled):
        self.bytes = spelled
        self.at = 0
        self.limit = len(spelled)       # where the part ends that is being read
        self.notes = set()
        self.imported_globals = 0
        self.imported_tables = 0
        self.types = []
        self.funcs = []
        self.bodies = 0

    def byte(self):
        require(self.at < self.limit, 'unexpected end')
        self.at += 1
        return self.bytes[self.at - 1]

    def take(self, count):
        require(count <= self.limit - self.at, 'unexpected end')
        self.at += count
        return self.bytes[self.at - count:self.at]

    def sized(self, part):
        """A part behind its size, which it fills."""
        size = self.unsigned()
        around, self.limit = self.limit, self.at + size
        require(self.limit <= around, 'a part past the end')
        part()
        require(self.at == self.limit, 'a part of another size')
        self.limit = around

    def groups(self, bits):
        """The bytes of a number in LEB128: at most as many as its bits need."""
        spelled = [self.byte()]
        while spelled[-1] >= 128:
            require(len(spelled) * 7 < bits, 'a number of too many bytes')
            spelled.append(self.byte())
        return spelled

    def unsigned(self):
        """A number of 32 bits without a sign."""
        spelled = self.groups(32)
        number = sum((byte & 127) << 7 * place for place, byte in enumerate(spelled))
        require(number < 2 ** 32, 'a number that is too large')
        return number

    def signed(self, bits):
        """A number with a sign."""
        spelled = self.groups(bits)
        number = sum((byte & 127) << 7 * place for place, byte in enumerate(spelled))
        if spelled[-1] & 64:
            number -= 1 << 7 * len(spelled)
        require(-(1 << bits - 1) <= number < 1 << bits - 1, 'a number that is too large')
        return number

    def vector(self, entry):
        """Entries behind their number."""
        return [entry() for _ in range(self.unsigned())]

    def name(self):
        """A name: counted bytes in UTF-8."""
        try:
            return self.take(self.unsigned()).decode('utf-8')
        except UnicodeDecodeError:
            raise Malformed('a name that is no UTF-8') from None

    # Types

    def value_type(self):
        ty = self.byte()
        require(ty in VALUE_TYPES, 'no integer type', True)
        return ty

    def func_type(self):
        require(self.byte() == 0x60, 'no function type')
        ty = self.vector(self.value_type), self.vector(self.value_type)
        if len(ty[1]) > 1:
            self.notes.add('several results')
        self.types.append(ty)

    def limits(self):
        flag = self.byte()
        require(flag < 2, 'unknown limits', True)
        least = self.unsigned()
        return least, self.unsigned() if flag else None

    def table(self):
        require(self.byte() == 0x70, 'no function reference', True)
        least, _ = self.limits()
        if least > 10_000_000:
            self.notes.add('a large table')

    def global_type(self):
        self.value_type()
        require(self.byte() < 2, 'unknown mutability')

    # Instructions

    def address(self):
        self.unsigned()
        self.unsigned()

    def reserved(self):
        require(self.byte() == 0, 'a reserved byte', True)

    def block_type(self):
        ty = self.byte()
        require(ty in BLOCK_TYPES, 'unknown block type', True)
        return ty

    def br_table(self, labels):
        """Labels whose results have two types are noted: unreachable code may hold them in later versions."""
        numbers = self.vector(self.unsigned) + [self.unsigned()]
        results = {labels[-1 - number] for number in numbers if number < len(labels)}
        if len(results) > 1:
            self.notes.add('labels of several types')

    def simple(self, opcode, labels):
        """The rest of an instruction that holds no others."""
        if opcode in WITH_NUMBER:
            self.unsigned()
        elif opcode in WITH_ADDRESS:
            self.address()
        elif opcode == 0x0e:
            self.br_table(labels)
        elif opcode == 0x11:
            self.unsigned()
            self.reserved()
        elif opcode in (0x3f, 0x40):
            self.reserved()
        elif opcode == 0x41:
            self.signed(32)
        elif opcode == 0x42:
            self.signed(64)
        else:
            require(opcode in ALONE, 'an opcode outside the profile', True)

    def expression(self, result):
        """The instructions of a body up to its `end`. `open_` has the opcodes of the blocks that are open, and `labels` the
        result types of the labels."""
        open_, labels = [0x02], [result]
        while open_:
            require(self.at < self.limit, BODY_WITHOUT_END)
            opcode = self.byte()
            if opcode in (0x02, 0x03, 0x04):
                require(len(open_) <= MOST_NESTED, 'nested too deep', True)
                ty = self.block_type()
                open_.append(opcode)
                labels.append(0x40 if opcode == 0x03 else ty)
            elif opcode == 0x05:
                require(open_[-1] == 0x04, 'else without if')
                open_[-1] = 0x05
            elif opcode == 0x0b:
                open_.pop()
                labels.pop()
            else:
                self.simple(opcode, labels)

    def initial(self):
        """An initial expression: one instruction of three. Gives the number of the global that it reads, if it does."""
        opcode = self.byte()
        require(opcode in (0x41, 0x42, 0x23), 'no initial expression', True)
        number = self.unsigned() if opcode == 0x23 else self.signed(32 if opcode == 0x41 else 64)
        require(self.at < self.limit, INITIAL_WITHOUT_END)
        require(self.byte() == 0x0b, 'no initial expression', True)
        return number if opcode == 0x23 else None

    def offset(self):
        """The offset of a segment. One that reads a global of the module's own is noted."""
        read = self.initial()
        if read is not None and read >= self.imported_globals:
            self.notes.add('an own global in an offset')

    # Sections

    def import_(self):
        self.name()
        self.name()
        kind = self.byte()
        require(kind < 4, 'unknown kind', True)
        if kind == 0:
            self.unsigned()
        elif kind == 1:
            self.imported_tables += 1
            self.table()
        elif kind == 2:
            self.limits()
        else:
            self.imported_globals += 1
            self.global_type()

    def global_(self):
        self.global_type()
        self.initial()

    def export(self):
        self.name()
        require(self.byte() < 4, 'unknown kind', True)
        self.unsigned()

    def segment_number(self):
        """The number of a segment's table or memory. Later versions of the standard read flags here."""
        if self.unsigned() != 0:
            self.notes.add('flags of a segment')

    def elem(self):
        self.segment_number()
        self.offset()
        self.vector(self.unsigned)

    def data(self):
        self.segment_number()
        self.offset()
        self.take(self.unsigned())

    def run_of_locals(self):
        count = self.unsigned()
        self.value_type()
        return count

    def code(self, ty):
        """The locals and the body of a function of a type by its number."""
        declared = sum(self.vector(self.run_of_locals))
        require(declared <= MOST_LOCALS, 'too many locals', True)
        if declared > 50_000:
            self.notes.add('many locals')
        results = self.types[ty][1] if ty < len(self.types) else []
        self.expression(results[0] if results else 0x40)

    def functions(self):
        """The function section: the numbers of types."""
        self.funcs = self.vector(self.unsigned)

    def codes(self):
        """The code section: as many entries as the function section has."""
        self.bodies = self.unsigned()
        require(self.bodies == len(self.funcs), 'functions without bodies')
        for ty in self.funcs:
            self.sized(lambda: self.code(ty))

    def tables(self):
        """The table section."""
        if len(self.vector(self.table)) + self.imported_tables > 1:
            self.notes.add('several tables')

    def custom(self):
        """A custom section: a name and any bytes."""
        self.name()
        self.notes.add('a custom section')
        self.at = self.limit

    def section(self, number):
        """The content of a section by its id."""
        entries = {1: self.func_type, 2: self.import_, 5: self.limits, 6: self.global_, 7: self.export, 9: self.elem,
                   11: self.data}
        whole = {0: self.custom, 3: self.functions, 4: self.tables, 8: self.unsigned, 10: self.codes}
        if number in whole:
            whole[number]()
        else:
            self.vector(entries[number])

    def module(self):
        """The whole module."""
        require(self.take(8) == b'\0asm\1\0\0\0', 'no module')
        last = 0
        while self.at < self.limit:
            number = self.byte()
            require(number <= 11, 'unknown section', True)
            require(number == 0 or last < number, 'sections out of order')
            last = max(last, number)
            self.sized(lambda: self.section(number))
        require(self.bodies == len(self.funcs), 'functions without bodies')
        if self.imported_tables > 1:
            self.notes.add('several tables')


class Reading:
    """What the reader says of a module: why it is malformed, or None; whether other readers may take it all the same; and
    what it noticed."""

    def __init__(self, spelled):
        reader = Reader(spelled)
        self.malformed, self.later = None, False
        try:
            reader.module()
        except Malformed as fault:
            self.malformed = str(fault)
            self.later = fault.later or 'flags of a segment' in reader.notes
        self.notes = reader.notes
