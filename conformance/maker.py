"""Makes random modules: valid ones by construction, and others by changing bytes of these.

A valid module has a global 0 that counts down at each entry of a function and at each round of a loop, and `unreachable`
where it passes zero, so that each run ends. Its functions write bytes, keep values in locals, globals, memory and table, and
may trap. No instruction's result is left open by the standard."""
import random

from binary import EMPTY, I32, I64, Module, counted, func_type, i32_const, i64_const, indexed, limits, unsigned, vector

BUDGET = 300
PUT, GET, STOP = 0, 1, 2
TYPES = [([I32], []), ([], [I32]), ([I32, I32], []), ([], []), ([I32], [I32]), ([I64, I32], [I64]), ([], [I64])]
OWN_TYPES = range(3, len(TYPES))    # the types before these are those of put, get and stop
TABLE_SIZE = 8
MEMORY_BYTES = 65536
SPEND = indexed(0x23, 0) + i32_const(1) + b'\x6b' + indexed(0x24, 0) + \
    indexed(0x23, 0) + i32_const(0) + b'\x48\x04\x40\x00\x0b'

COMPARISONS = {I32: range(0x46, 0x50), I64: range(0x51, 0x5b)}
UNARY = {I32: range(0x67, 0x6a), I64: range(0x79, 0x7c)}
BINARY = {I32: range(0x6a, 0x79), I64: range(0x7c, 0x8b)}
DIVISIONS = {0x6d, 0x6e, 0x6f, 0x70, 0x7f, 0x80, 0x81, 0x82}
# Opcode and width in bytes.
LOADS = {I32: [(0x28, 4), (0x2c, 1), (0x2d, 1), (0x2e, 2), (0x2f, 2)],
         I64: [(0x29, 8), (0x30, 1), (0x31, 1), (0x32, 2), (0x33, 2), (0x34, 4), (0x35, 4)]}
STORES = {I32: [(0x36, 4), (0x3a, 1), (0x3b, 2)], I64: [(0x37, 8), (0x3c, 1), (0x3d, 2), (0x3e, 4)]}
SPECIAL = {I32: [0, 1, -1, 2, 63, 64, 127, 128, 2 ** 31 - 1, -2 ** 31, 255, 65535, 65536],
           I64: [0, 1, -1, 2, 63, 64, 127, 2 ** 31, 2 ** 32 - 1, 2 ** 63 - 1, -2 ** 63, -2 ** 31]}


class Plan:
    """What the functions of a module may name: the type numbers of all functions, the types of the changeable globals, and
    what the table holds."""

    def __init__(self, rng):
        self.rng = rng
        own = [rng.choice(OWN_TYPES) for _ in range(rng.randint(1, 4))]
        self.funcs = [0, 1, 2] + own + [rng.choice([1, 3])]     # the last one is main
        self.globals = [I32] + [rng.choice([I32, I64]) for _ in range(rng.randint(0, 3))]
        self.table = [rng.randrange(len(self.funcs)) for _ in range(rng.randint(1, TABLE_SIZE))]


class Body:
    """A function's body under construction. `labels` has the type of each label's operand, the innermost last."""

    def __init__(self, plan, ty):
        self.plan, self.rng = plan, plan.rng
        params, results = TYPES[ty]
        self.declared = [self.rng.choice([I32, I64]) for _ in range(self.rng.randint(0, 4))]
        self.locals = params + self.declared
        self.counters = 0
        self.result = results[0] if results else EMPTY
        self.labels = [self.result]

    def number(self, ty):
        """A constant."""
        if self.rng.random() < 0.5:
            value = self.rng.choice(SPECIAL[ty])
        else:
            value = self.rng.getrandbits(self.rng.choice([4, 8, 16, 32 if ty == I32 else 64]))
        return i32_const(value) if ty == I32 else i64_const(value)

    def local_of(self, ty):
        """The number of a local of this type, or None."""
        places = [place for place, local in enumerate(self.locals) if local == ty]
        return self.rng.choice(places) if places else None

    def global_of(self, ty):
        """The number of a global of this type other than the budget, or None."""
        places = [place for place, kind in enumerate(self.plan.globals) if kind == ty and place > 0]
        return self.rng.choice(places) if places else None

    # Values: instructions that leave one operand of a type

    def value(self, ty, depth):
        """Instructions that give a value of this type. None of the kinds tried last needs anything."""
        if depth == 0:
            kinds = [self.read_local, self.read_global, self.constant]
        else:
            kinds = [self.read_local, self.read_global, self.constant, self.unary, self.binary, self.compared,
                     self.converted, self.load, self.selected, self.chosen, self.block_value, self.called,
                     self.called_indirectly, self.tee, self.memory_size]
        made = self.rng.choice(kinds)(ty, depth - 1)
        return self.constant(ty, depth) if made is None else made

    def constant(self, ty, _depth):
        return self.number(ty)

    def read_local(self, ty, _depth):
        place = self.local_of(ty)
        return None if place is None else indexed(0x20, place)

    def read_global(self, ty, _depth):
        place = self.global_of(ty)
        return None if place is None else indexed(0x23, place)

    def unary(self, ty, depth):
        return self.value(ty, depth) + bytes([self.rng.choice(UNARY[ty])])

    def binary(self, ty, depth):
        """A binary operator. The divisor of a division is mostly made odd, so that few divide by zero."""
        opcode = self.rng.choice(BINARY[ty])
        right = self.value(ty, depth)
        if opcode in DIVISIONS and self.rng.random() < 0.95:
            right += i32_const(1) + b'\x72' if ty == I32 else i64_const(1) + b'\x84'
        return self.value(ty, depth) + right + bytes([opcode])

    def compared(self, ty, depth):
        if ty != I32:
            return None
        of = self.rng.choice([I32, I64])
        if self.rng.random() < 0.2:
            return self.value(of, depth) + (b'\x45' if of == I32 else b'\x50')
        return self.value(of, depth) + self.value(of, depth) + bytes([self.rng.choice(COMPARISONS[of])])

    def converted(self, ty, depth):
        if ty == I32:
            return self.value(I64, depth) + b'\xa7'
        return self.value(I32, depth) + self.rng.choice([b'\xac', b'\xad'])

    def address(self, width, depth):
        """An address and the immediate of an access. Few are past the end of the memory."""
        where = self.value(I32, depth)
        if self.rng.random() < 0.97:
            where += i32_const(0x7ff8) + b'\x71'
        offset = self.rng.choice([0, 1, 8, 1000])
        return where, unsigned(self.rng.randint(0, width.bit_length() - 1)) + unsigned(offset)

    def load(self, ty, depth):
        opcode, width = self.rng.choice(LOADS[ty])
        where, immediate = self.address(width, depth)
        return where + bytes([opcode]) + immediate

    def selected(self, ty, depth):
        return self.value(ty, depth) + self.value(ty, depth) + self.value(I32, depth) + b'\x1b'

    def tee(self, ty, depth):
        place = self.local_of(ty)
        return None if place is None else self.value(ty, depth) + indexed(0x22, place)

    def memory_size(self, ty, depth):
        if ty != I32:
            return None
        return b'\x3f\x00' if self.rng.random() < 0.7 else self.value(I32, depth) + b'\x40\x00'

    def chosen(self, ty, depth):
        """An `if` with a result."""
        condition = self.value(I32, depth)
        self.labels.append(ty)
        made = condition + bytes([0x04, ty]) + self.statements(depth, 1) + self.value(ty, depth) + b'\x05' + \
            self.statements(depth, 1) + self.value(ty, depth) + b'\x0b'
        self.labels.pop()
        return made

    def block_value(self, ty, depth):
        """A `block` with a result."""
        self.labels.append(ty)
        made = bytes([0x02, ty]) + self.statements(depth, 2) + self.value(ty, depth) + b'\x0b'
        self.labels.pop()
        return made

    def arguments(self, ty, depth):
        return b''.join(self.value(param, depth) for param in TYPES[ty][0])

    def called(self, ty, depth):
        """A call of a function with this result."""
        places = [place for place, of in enumerate(self.plan.funcs) if TYPES[of][1] == ([] if ty == EMPTY else [ty])]
        places = [place for place in places if place != STOP or self.rng.random() < 0.02]
        if not places:
            return None
        place = self.rng.choice(places)
        return self.arguments(self.plan.funcs[place], depth) + indexed(0x10, place)

    def called_indirectly(self, ty, depth):
        """An indirect call by a type with this result, mostly of an element that has this type."""
        of = self.rng.choice([number for number, (_, results) in enumerate(TYPES)
                              if results == ([] if ty == EMPTY else [ty]) and number != 2])
        places = [place for place, func in enumerate(self.plan.table) if self.plan.funcs[func] == of]
        if places and self.rng.random() < 0.95:
            where = i32_const(self.rng.choice(places))
        elif self.rng.random() < 0.1:
            where = i32_const(self.rng.randrange(TABLE_SIZE + 2))
        else:
            return None
        return self.arguments(of, depth) + where + indexed(0x11, of) + b'\x00'

    # Statements: instructions that leave no operand

    def statements(self, depth, most):
        return b''.join(self.statement(depth) for _ in range(self.rng.randint(0, most)))

    def statement(self, depth):
        if depth <= 0:
            kinds = [self.put, self.set_local, self.set_global]
        else:
            kinds = [self.put, self.put, self.set_local, self.set_local, self.set_global, self.store, self.store,
                     self.conditional, self.block, self.loop, self.loop, self.branch_if, self.jump, self.call, self.nop]
        made = self.rng.choice(kinds)(depth - 1)
        return b'' if made is None else made

    def put(self, depth):
        return self.value(I32, max(depth, 0)) + indexed(0x10, PUT)

    def nop(self, _depth):
        return b'\x01'

    def set_local(self, depth):
        ty = self.rng.choice([I32, I64])
        place = self.local_of(ty)
        return None if place is None else self.value(ty, max(depth, 0)) + indexed(0x21, place)

    def set_global(self, depth):
        ty = self.rng.choice([I32, I64])
        place = self.global_of(ty)
        return None if place is None else self.value(ty, max(depth, 0)) + indexed(0x24, place)

    def store(self, depth):
        ty = self.rng.choice([I32, I64])
        opcode, width = self.rng.choice(STORES[ty])
        where, immediate = self.address(width, depth)
        return where + self.value(ty, depth) + bytes([opcode]) + immediate

    def call(self, depth):
        ty = self.rng.choice([EMPTY, I32, I64])
        made = self.rng.choice([self.called, self.called_indirectly])(ty, depth)
        return made if made is None or ty == EMPTY else made + b'\x1a'

    def conditional(self, depth):
        condition = self.value(I32, depth)
        self.labels.append(EMPTY)
        made = condition + bytes([0x04, EMPTY]) + self.statements(depth, 3)
        if self.rng.random() < 0.5:
            made += b'\x05' + self.statements(depth, 3)
        self.labels.pop()
        return made + b'\x0b'

    def block(self, depth):
        self.labels.append(EMPTY)
        made = bytes([0x02, EMPTY]) + self.statements(depth, 4) + b'\x0b'
        self.labels.pop()
        return made

    def loop(self, depth):
        """A loop that a counter of its own ends, where the budget doesn't."""
        counter = len(self.locals) + self.counters
        self.counters += 1
        self.labels.append(EMPTY)
        made = i32_const(self.rng.randint(1, 5)) + indexed(0x21, counter) + bytes([0x03, EMPTY]) + SPEND + \
            self.statements(depth, 3) + indexed(0x20, counter) + i32_const(1) + b'\x6b' + indexed(0x22, counter) + \
            indexed(0x0d, 0) + b'\x0b'
        self.labels.pop()
        return made

    def branch_if(self, depth):
        label = self.rng.randrange(len(self.labels))
        ty = self.labels[-1 - label]
        operand, after = (b'', b'') if ty == EMPTY else (self.value(ty, depth), b'\x1a')
        return operand + self.value(I32, depth) + indexed(0x0d, label) + after

    def jump(self, depth):
        """A branch without a condition, with instructions behind it that are never reached, in an `if` that is entered once
        in about eight times."""
        guard = self.value(I32, depth) + i32_const(7) + b'\x71\x45'
        self.labels.append(EMPTY)
        label = self.rng.randrange(len(self.labels))
        ty = self.labels[-1 - label]
        operand = b'' if ty == EMPTY else self.value(ty, depth)
        alike = [place for place in range(len(self.labels)) if self.labels[-1 - place] == ty]
        kind = self.rng.random()
        if kind < 0.4:
            made = operand + indexed(0x0c, label)
        elif kind < 0.85:
            table = [unsigned(self.rng.choice(alike)) for _ in range(self.rng.randint(0, 4))]
            made = operand + self.value(I32, depth) + b'\x0e' + vector(table) + unsigned(label)
        elif kind < 0.97:
            made = (b'' if self.result == EMPTY else self.value(self.result, depth)) + b'\x0f'
        else:
            made = b'\x00'
        made += self.rng.choice([b'', b'\x1a', b'\x6a\x1a', b'\x1b\x1a', b'\x45\x45\x1a', b'\x7c\xa7\x1a', b'\x28\x02\x00\x1a'])
        made += self.statements(depth, 1) + b'\x0b'
        self.labels.pop()
        return guard + bytes([0x04, EMPTY]) + made

    def made(self):
        """The runs of locals and the instructions."""
        body = SPEND + self.statements(3, 6)
        for place, ty in enumerate(self.locals):
            body += indexed(0x20, place) + (b'' if ty == I32 else b'\xa7') + indexed(0x10, PUT)
        if self.result != EMPTY:
            body += self.value(self.result, 2)
        runs = [(1, ty) for ty in self.declared] + [(self.counters, I32)]
        return runs, body


def valid_module(rng, main=b'main'):
    """A valid module, whose last function is exported under the name that is given."""
    plan = Plan(rng)
    module = Module()
    module.types = [func_type(params, results) for params, results in TYPES]
    for name, ty in ((b'put', 0), (b'get', 1), (b'stop', 2)):
        module.import_func(name, ty)
    for ty in plan.funcs[3:]:
        runs, body = Body(plan, ty).made()
        module.func(ty, body, runs)
    module.tables = [b'\x70' + limits(TABLE_SIZE, rng.choice([None, TABLE_SIZE, 100]))]
    module.memories = [limits(1, rng.choice([1, 2, 3]))]
    module.globals = [bytes([I32, 1]) + i32_const(BUDGET) + b'\x0b']
    for ty in plan.globals[1:]:
        initial = i32_const(rng.getrandbits(8)) if ty == I32 else i64_const(rng.getrandbits(40))
        module.globals.append(bytes([ty, 1]) + initial + b'\x0b')
    module.export_func(main, len(plan.funcs) - 1)
    module.elems = [b'\0' + i32_const(0) + b'\x0b' + vector([unsigned(func) for func in plan.table])]
    module.data = [b'\0' + i32_const(rng.randrange(100)) + b'\x0b' + counted(rng.randbytes(rng.randint(0, 40)))]
    return module.spelled()


def small_module(rng):
    """A small valid module that is not linked, since it has no `main`."""
    while True:
        module = valid_module(rng, b'run')
        if len(module) < 1500:
            return module


def mutated(rng, module):
    """The module with one to three bytes changed, put in or taken out."""
    changed = bytearray(module)
    for _ in range(rng.choice([1, 1, 1, 2, 3])):
        place = rng.randrange(8, len(changed))
        kind = rng.random()
        if kind < 0.75:
            changed[place] = rng.choice([rng.randrange(256), changed[place] ^ 1 << rng.randrange(8), rng.randrange(16)])
        elif kind < 0.9:
            changed.insert(place, rng.choice([0, 0x0b, 0x1a, 0x40, 0x7e, 0x7f, 0x80, rng.randrange(256)]))
        else:
            del changed[place]
    return bytes(changed)


def seeded(seed):
    """The source of all choices."""
    return random.Random(seed)
