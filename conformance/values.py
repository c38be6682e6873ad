"""The values of a running program, the state that it changes, and the ways in which a step of it ends.

A value is None where it is void, an `int`, a `bool`, a `str` of one character for a CHAR, `bytes` for a text, or of one of the
classes below."""
import bisect

BOOL, INT, CHAR, STR, FAULT = 3, 4, 5, 6, 7   # the numbers of these types

OVERFLOW, DIVISION, VOID, INDEX, NO_BRANCH, NO_RETURN, ASSERT, UNCAUGHT, NO_ROOM, TOO_DEEP, FRAMES = range(1, 12)


class Object:
    """An object: the number of its type, its attributes, and the elements of its array part."""
    __slots__ = ('ty', 'fields', 'elements')

    def __init__(self, ty, fields, elements=()):
        self.ty, self.fields, self.elements = ty, fields, elements


class Bound(Object):
    """A bound value: a target of a class, and for each argument whether it is open. Its attributes are the receiver and the
    given values."""
    __slots__ = ('target', 'owner', 'is_open')

    def __init__(self, ty, fields, target, owner, is_open):
        super().__init__(ty, fields)
        self.target, self.owner, self.is_open = target, owner, is_open


class Imm:
    """A value of an immutable class."""
    __slots__ = ('ty', 'fields')

    def __init__(self, ty, fields):
        self.ty, self.fields = ty, fields


class Wide:
    """A value of an immutable class that stands at an abstract type."""
    __slots__ = ('value',)

    def __init__(self, value):
        self.value = value


def type_of(value):
    """The number of the type that a value has, or None for a void."""
    if value is None:
        return None
    if isinstance(value, bool):
        return BOOL
    if isinstance(value, Wide):
        return type_of(value.value)
    return PLAIN[type(value)] if type(value) in PLAIN else value.ty


PLAIN = {int: INT, str: CHAR, bytes: STR}


def is_void(value):
    """Whether a value is void: also 0, false, the character 0, and an immutable value whose attributes are void."""
    if isinstance(value, Imm):
        return all(is_void(field) for field in value.fields)
    if isinstance(value, str):
        return value == '\0'
    return value is None or (isinstance(value, int) and not value)


def unwrapped(value):
    """The value behind a wide one."""
    return value.value if isinstance(value, Wide) else value


def eights(size):
    """How many times eight bytes so many bytes begin."""
    return (size + 7) // 8


def object_size(attributes, elements=0):
    return 8 * (attributes + 1) + 8 * elements


class Raised(Exception):
    """An exception is raised: its value, and the kind and the position of the fault or of the `raise`."""

    def __init__(self, value, kind, at):
        super().__init__()
        self.value, self.kind, self.at = value, kind, at


class Failed(Exception):
    """A fault that nothing catches."""

    def __init__(self, kind, at):
        super().__init__()
        self.kind, self.at = kind, at


class Broke(Exception):
    """The innermost loop is left."""


class Spent(Exception):
    """A turn is due, and none is left."""


class Stuck(Exception):
    """No rule says how to go on."""


class State:
    """What a running program changes, and what it spends."""

    def __init__(self, feeds, given, room, most_turns):
        self.feeds = feeds           # for each text the places of its line feeds
        self.input = given
        self.read = 0                # how many of its bytes were read
        self.output = bytearray()
        self.room = room             # how many bytes may still be charged
        self.turns = 0
        self.most_turns = most_turns
        self.live = 0                # how many instances of iters there are
        self.started = 0             # how many were started
        self.events = None           # what became of them, where that is kept: the event, the feature and the site that started
                                     # it, and its number

    def turn(self):
        if self.turns >= self.most_turns:
            raise Spent
        self.turns += 1

    def spend(self, turns):
        """Spends turns one after the other."""
        spent = min(turns, self.most_turns - self.turns)
        self.turns += spent
        if spent < turns:
            raise Spent

    def charge(self, size, at):
        if size > self.room:
            raise Failed(NO_ROOM, at)
        self.room -= size

    def line(self, at):
        file, byte = at
        return bisect.bisect_left(self.feeds[file], byte) + 1

    def fault(self, kind, at):
        """Raises the object that tells of a fault. Where the room lacks for it, nothing catches the fault."""
        size = object_size(2)
        if size > self.room:
            raise Failed(kind, at)
        self.room -= size
        raise Raised(Object(FAULT, [kind, self.line(at)]), kind, at)

    def new_text(self, text, at):
        self.charge(8 + 8 * eights(len(text)), at)
        return text

    def long_text(self, text, at):
        """A text that takes turns by its length, before it is charged."""
        self.spend(eights(len(text)))
        return self.new_text(text, at)

    def put_text(self, text):
        """Puts a text, with a turn before each eight bytes."""
        for place in range(0, len(text), 8):
            self.turn()
            self.output += text[place:place + 8]

    def get_byte(self):
        if self.read >= len(self.input):
            return -1
        self.read += 1
        return self.input[self.read - 1]
