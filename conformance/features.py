"""What the features do that the prelude leaves to the implementation: each takes the run, the number of its class, the position
of the call, self and the arguments, and gives its value."""
from values import (DIVISION, INDEX, OVERFLOW, VOID, Bound, Object, Stuck, is_void, object_size)


def as_int(value):
    if type(value) is not int:
        raise Stuck('no INT')
    return value


def as_bool(value):
    if type(value) is not bool:
        raise Stuck('no BOOL')
    return value


def as_char(value):
    if type(value) is not str:
        raise Stuck('no CHAR')
    return ord(value)


def as_text(value):
    if value is None:
        return b''
    if type(value) is not bytes:
        raise Stuck('no STR')
    return value


def elements_of(value):
    if value is None:
        return ()
    if type(value) is not Object:
        raise Stuck('no array')
    return value.elements


def whole(run, number, at):
    """A result that has to be a number of the language."""
    if not -2 ** 31 <= number < 2 ** 31:
        run.state.fault(OVERFLOW, at)
    return number


def quotient(a, b):
    """The quotient, rounded towards 0."""
    return abs(a) // abs(b) * (1 if (a < 0) == (b < 0) else -1)


def bits(a):
    return a & 0xffffffff


def of_bits(a):
    return a - 2 ** 32 if a >= 2 ** 31 else a


def with_ints(f):
    """A feature of two numbers that gives a number."""
    return lambda run, owner, at, self, args: whole(run, f(as_int(self), as_int(args[0])), at)


def on_bits(f):
    return lambda run, owner, at, self, args: of_bits(f(bits(as_int(self)), bits(as_int(args[0]))))


def dividing(f):
    def feature(run, owner, at, self, args):
        a, b = as_int(self), as_int(args[0])
        if b == 0:
            run.state.fault(DIVISION, at)
        return whole(run, f(a, b), at)
    return feature


def bool_is_eq(run, owner, at, self, args):
    return as_bool(self) == as_bool(args[0])


def bool_not(run, owner, at, self, args):
    return not as_bool(self)


def int_negate(run, owner, at, self, args):
    return whole(run, -as_int(self), at)


def int_is_eq(run, owner, at, self, args):
    return as_int(self) == as_int(args[0])


def int_is_lt(run, owner, at, self, args):
    return as_int(self) < as_int(args[0])


def int_str(run, owner, at, self, args):
    return run.state.new_text(b'%d' % as_int(self), at)


def int_char(run, owner, at, self, args):
    if not 0 <= as_int(self) <= 255:
        run.state.fault(OVERFLOW, at)
    return chr(self)


def char_is_eq(run, owner, at, self, args):
    return as_char(self) == as_char(args[0])


def char_is_lt(run, owner, at, self, args):
    return as_char(self) < as_char(args[0])


def char_int(run, owner, at, self, args):
    return as_char(self)


def char_str(run, owner, at, self, args):
    return run.state.new_text(bytes([as_char(self)]), at)


def str_size(run, owner, at, self, args):
    return len(as_text(self))


def str_aget(run, owner, at, self, args):
    text, place = as_text(self), as_int(args[0])
    if not 0 <= place < len(text):
        run.state.fault(INDEX, at)
    return chr(text[place])


def str_cat(run, owner, at, self, args):
    return run.state.long_text(as_text(self) + as_text(args[0]), at)


def str_substring(run, owner, at, self, args):
    text, place, count = as_text(self), as_int(args[0]), as_int(args[1])
    if place < 0 or count < 0 or place + count > len(text):
        run.state.fault(INDEX, at)
    return run.state.long_text(text[place:place + count], at)


def str_of(run, owner, at, self, args):
    elements, count = elements_of(args[0]), as_int(args[1])
    if not 0 <= count <= len(elements):
        run.state.fault(INDEX, at)
    return run.state.long_text(bytes(map(as_char, elements[:count])), at)


def out_put(run, owner, at, self, args):
    run.state.put_text(as_text(args[0]))


def out_put_int(run, owner, at, self, args):
    run.state.output += b'%d' % as_int(args[0])


def out_put_char(run, owner, at, self, args):
    run.state.output.append(as_char(args[0]))


def in_get_byte(run, owner, at, self, args):
    return run.state.get_byte()


def sys_ob_eq(run, owner, at, self, args):
    a, b = args
    if type(a) is type(b) and type(a) in (Object, Bound):
        return a is b
    return is_void(a) and is_void(b)


def aref_asize(run, owner, at, self, args):
    return len(elements_of(self))


def element_place(run, at, self, place):
    """The elements of an array, where they have such a place."""
    if self is None:
        run.state.fault(VOID, at)
    elements = elements_of(self)
    if not 0 <= place < len(elements):
        run.state.fault(INDEX, at)
    return elements


def aref_aget(run, owner, at, self, args):
    place = as_int(args[0])
    return element_place(run, at, self, place)[place]


def aref_aset(run, owner, at, self, args):
    place = as_int(args[0])
    element_place(run, at, self, place)[place] = args[1]


def new_array(run, ty, at, count):
    """An object with so many elements, all void."""
    if count < 0:
        run.state.fault(INDEX, at)
    info = run.types[ty]
    run.state.charge(object_size(len(info['attrs']), count), at)
    element = None if info['elem'] is None else run.void_of(info['elem'])
    return Object(ty, [run.void_of(attr) for attr in info['attrs']], [element] * count)


def array_create(run, owner, at, self, args):
    return new_array(run, owner, at, as_int(args[0]))


FEATURES = [
    bool_is_eq, bool_not, with_ints(lambda a, b: a + b), with_ints(lambda a, b: a - b), with_ints(lambda a, b: a * b),
    int_negate, dividing(quotient), dividing(lambda a, b: a - b * quotient(a, b)), int_is_eq, int_is_lt,
    on_bits(lambda a, b: a & b), on_bits(lambda a, b: a | b), on_bits(lambda a, b: a ^ b), int_str, int_char,
    char_is_eq, char_is_lt, char_int, char_str, str_size, str_aget, str_cat, str_substring, str_of, out_put, out_put_int,
    out_put_char, in_get_byte, sys_ob_eq, aref_asize, aref_aget, aref_aset, array_create]

OB_EQ, ASET = FEATURES.index(sys_ob_eq), FEATURES.index(aref_aset)
