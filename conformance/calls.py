"""What a call reaches, what it hands over and brings back, and the run of a routine."""
from features import ASET, FEATURES, OB_EQ
from values import (BOOL, CHAR, INT, TOO_DEEP, VOID, Bound, Broke, Failed, Imm, Object, State, Stuck, Wide, object_size, type_of,
                    unwrapped)

MOST_DEEP = 10_000
ABSENT = object()        # where a call gives no value for an argument


class Returning:
    """How a feature goes on that returns this value."""
    __slots__ = ('value',)

    def __init__(self, value):
        self.value = value


class Activation:
    """A running feature, or the initialiser of a shared, which has none."""
    __slots__ = ('feature', 'me', 'variables', 'sites', 'exception', 'depth')

    def __init__(self, feature, me, variables, depth):
        self.feature, self.me, self.variables, self.depth = feature, me, variables, depth
        self.sites = {}          # the instance at each site that has one
        self.exception = None    # that of the innermost branch of a protect


class Instance:
    """An iter that was started: its number, its activation, the bound value that it was started through, and what is left of its
    body."""
    __slots__ = ('number', 'here', 'through', 'left')

    def __init__(self, number, here, through, left):
        self.number, self.here, self.through, self.left = number, here, through, left


class Callee:
    """What a call reaches: a target of a class, self, and the bound value through which it is reached."""
    __slots__ = ('target', 'owner', 'me', 'through')

    def __init__(self, target, owner, me, through=None):
        self.target, self.owner, self.me, self.through = target, owner, me, through


class Feature:
    """A feature whose body has become a function, or a generator for an iter."""

    def __init__(self, run, number, row):
        self.number = number
        self.iter, self.modes, self.vars, self.at = row['iter'], row['modes'], row['vars'], row['pos']
        self.sites = row['sites']
        self.voids = [run.void_of(ty) for ty in self.vars]
        self.wide = [run.is_abstract(ty) for ty in self.vars]
        self.body = None


def interleaved(is_open, first, second):
    """The first values at the open places, in order, and the second ones at the others."""
    first, second = iter(first), iter(second)
    return [next(first if one else second) for one in is_open]


def filled(variables, given):
    """The values that are given, and what was there where none is."""
    return [variables[place] if place >= len(given) or given[place] is ABSENT else given[place]
            for place in range(len(variables))]


def only_given(given):
    return [value for value in given if value is not ABSENT]


def is_abstract_result(result):
    """Whether the type of a result is abstract: its name begins with `$`."""
    return result is not None and result[0] == 'Named' and result[1].startswith('$')


class Calls:
    """A typed tree with the state of its run, and the calls of its features. The bodies become functions by `body_of`."""

    def __init__(self, tree, given, room, most_turns):
        self.types, self.signatures, self.shareds = tree['types'], tree['sigs'], tree['shareds']
        self.state = State(tree['feeds'], given, room * 1024, most_turns)
        self.voids = {}
        self.above = [{number, *info['above']} for number, info in enumerate(self.types)]
        self.targets = [{one['ty']: one['target'] for one in signature['impls']} for signature in self.signatures]
        self.features = [Feature(self, number, row) for number, row in enumerate(tree['features'])]
        for feature, row in zip(self.features, tree['features']):
            feature.body = self.when_called(feature, row['body'])
        self.shared_values = [self.void_of(shared['ty']) for shared in self.shareds]
        self.main = tree['main']

    def when_called(self, feature, stmts):
        """A body that is made where the feature is called first: of most programs few features are."""
        def first(here):
            feature.body = self.body_of(feature, stmts)
            return feature.body(here)
        return first

    # ---- types

    def is_abstract(self, ty):
        return self.types[ty]['kind'] == 'Abstract'

    def is_immutable(self, ty):
        return self.types[ty]['kind'] == 'Immutable'

    def void_of(self, ty):
        if ty not in self.voids:
            self.voids[ty] = self.new_void(ty)
        return self.voids[ty]

    def new_void(self, ty):
        if ty in (BOOL, INT, CHAR):
            return {BOOL: False, INT: 0, CHAR: '\0'}[ty]
        if self.is_immutable(ty):
            return Imm(ty, [self.void_of(attr) for attr in self.types[ty]['attrs']])
        return None

    # ---- widening

    def widened(self, value, at):
        """A value where an abstract type is wanted."""
        if value is None or isinstance(value, (Object, Wide, bytes)):
            return value
        attributes = len(value.fields) if isinstance(value, Imm) else 1
        self.state.charge(object_size(attributes), at)
        return Wide(value)

    def wide_arguments(self, owner, target):
        """Which arguments of a target have abstract types. Those behind the last one told aren't widened."""
        form, number = target
        if form == 'Feature':
            return self.features[number].wide
        if form == 'Builtin':
            element = self.types[owner]['elem'] if number == ASET else None
            return [True, True] if number == OB_EQ else [False, element is not None and self.is_abstract(element)]
        if form == 'Set':
            return [self.is_abstract(self.types[owner]['attrs'][number])]
        return [form == 'SetShared' and self.is_abstract(self.shareds[number]['ty'])]

    def widened_where(self, wide, given, at):
        return [self.widened(value, at) if value is not ABSENT and place < len(wide) and wide[place] else value
                for place, value in enumerate(given)]

    # ---- calls

    def callee(self, called, value, at):
        form = called[0]
        if form == 'Static':
            return Callee(called[1], called[2], value)
        if value is None:
            self.state.fault(VOID, at)
        if form == 'Dispatch':
            ty = type_of(value)
            return Callee(self.targets[called[1]][ty], ty, unwrapped(value))
        if not isinstance(value, Bound):
            raise Stuck('no bound value')
        return Callee(value.target, value.owner, value.fields[0], value)

    def handed(self, called, callee, given, back, at):
        """The values as the callee gets them, the variables that get a value back, and whether the result is widened."""
        form = called[0]
        if form == 'Static':
            return given, back, False
        wide = self.wide_arguments(callee.owner, callee.target)
        if form == 'Dispatch':
            return self.widened_where(wide, given, at), back, is_abstract_result(self.signatures[called[1]]['result'])
        bound = callee.through
        kept = bound.fields[1:]
        values = self.widened_where(wide, interleaved(bound.is_open, given, kept), at)
        back = interleaved(bound.is_open, back, [None] * len(kept))
        return values, back, is_abstract_result(self.types[bound.ty]['ty'][2])

    def reached(self, target, owner, me, given, depth, at):
        """The result of a target, and its variables where it is a routine."""
        form, number = target
        if form == 'Feature':
            return self.routine(self.features[number], me, given, depth, at)
        given = only_given(given)
        if form == 'Builtin':
            return FEATURES[number](self, owner, at, me, given), ()
        if form == 'Get':
            return self.attribute(number, me, at), ()
        if form == 'Set':
            return self.set_attribute(number, given[0], me, at), ()
        if form == 'GetShared':
            return self.shared_values[number], ()
        self.shared_values[number] = given[0]
        return None, ()

    def routine(self, feature, me, given, depth, at):
        if feature.iter:
            raise Stuck('an iter is called as a routine')
        self.state.turn()
        self.check_depth(depth, at)
        here = Activation(feature, me, filled(feature.voids, given), depth + 1)
        try:
            flow = feature.body(here)
        except Broke:
            raise Stuck('a loop of another feature is left') from None
        if flow is None:
            return None, here.variables
        if not isinstance(flow, Returning):
            raise Stuck('a routine quits')
        return flow.value, here.variables

    def check_depth(self, depth, at):
        if depth >= MOST_DEEP:
            raise Failed(TOO_DEEP, at)

    def brought(self, here, value, variables, back, wide, at):
        """What comes back to the caller: the result, and the values of variables."""
        if wide:
            value = self.widened(value, at)
        for var, one in zip(back, variables):
            if var is not None:
                here.variables[var] = self.widened(one, at) if here.feature.wide[var] else one
        return value

    # ---- attributes

    def attribute(self, place, value, at):
        if value is None:
            self.state.fault(VOID, at)
        if not isinstance(value, (Imm, Object)):
            raise Stuck('no attributes')
        return value.fields[place]

    def set_attribute(self, place, value, of, at):
        if of is None:
            self.state.fault(VOID, at)
        if isinstance(of, Imm):
            self.state.charge(object_size(len(of.fields)), at)
            return Imm(of.ty, [*of.fields[:place], value, *of.fields[place + 1:]])
        of.fields[place] = value
        return None
