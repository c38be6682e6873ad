"""What statements do. Each becomes a function of the activation that it runs in, which gives None where the next statement
follows, and else how its feature goes on. In an iter the statements that hold a yield become generators of what they yield."""
from calls import Returning
from expressions import Expressions
from features import as_bool
from values import NO_BRANCH, UNCAUGHT, VOID, Broke, Raised, Stuck, type_of, unwrapped

QUIT = object()          # how a feature goes on that quits
ALWAYS, WHERE_FALSE = 0, 1   # the kinds of a `Leave`; the third is where its test is true


def first_true(here, entries, other):
    """The statements of the first entry of which a test is true."""
    for tests, body in entries:
        for test in tests:
            if as_bool(test(here)):
                return body
    return other


def with_exception(here, value, branch):
    """Runs a branch of a protect, and then, however it ends, has the exception that was there before."""
    before, here.exception = here.exception, value
    try:
        return branch(here)
    finally:
        here.exception = before


def yields(s):
    """Whether a statement holds a yield."""
    if s[0] == 'Yield':
        return True
    bodies = {'If': lambda: [body for _, body in s[1]] + [s[2]], 'Loop': lambda: [s[2]],
              'TypeCase': lambda: [arm[2] for arm in s[2]] + [s[3] or []]}
    return any(yields(one) for body in bodies.get(s[0], list)() for one in body)


class Statements(Expressions):
    """A run that runs statements."""

    def body_of(self, feature, stmts):
        """The body of a routine as a function, that of an iter as a generator."""
        return self.unfold_all(stmts) if feature.iter else self.statements(stmts)

    def statement(self, s):
        return getattr(self, 'stmt_' + s[0].lower())(*s[1:])

    def statements(self, stmts):
        parts = [self.statement(s) for s in stmts]
        if len(parts) == 1:
            return parts[0]

        def execute(here):
            for part in parts:
                flow = part(here)
                if flow is not None:
                    return flow
            return None
        return execute

    def stmt_let(self, var, value):
        value = self.expression(value)

        def write(here):
            here.variables[var] = value(here)
        return write

    def stmt_do(self, value):
        value = self.expression(value)

        def evaluate(here):
            value(here)
        return evaluate

    def tests(self, tests):
        """The tests of each entry as functions, and its statements as they are."""
        return [([self.expression(e) for e in entry], body) for entry, body in tests]

    def stmt_if(self, tests, other):
        entries = [(entry, self.statements(body)) for entry, body in self.tests(tests)]
        other = self.statements(other)

        def choose(here):
            return first_true(here, entries, other)(here)
        return choose

    def stmt_loop(self, number, body):
        body = self.statements(body)

        def loop(here):
            self.clear_loop(here, number)
            while True:
                self.state.turn()
                try:
                    flow = body(here)
                except Broke:
                    self.end_loop(here, number)
                    return None
                except Raised:
                    self.end_loop(here, number)
                    raise
                if flow is not None:
                    self.end_loop(here, number)
                    return flow
        return loop

    def clear_loop(self, here, loop):
        if any(here.feature.sites[site]['owner'] == loop for site in here.sites):
            raise Stuck('a loop begins that has instances')

    def stmt_leave(self, kind, test):
        test = None if test is None else self.expression(test)

        def leave(here):
            if kind == ALWAYS or as_bool(test(here)) != (kind == WHERE_FALSE):
                raise Broke
        return leave

    def stmt_typecase(self, var, arms, other, at):
        arms = [(ty, bound, self.statements(body)) for ty, bound, body in arms]
        other = None if other is None else self.statements(other)

        def choose(here):
            body = self.branch(here, here.variables[var], arms, other, at)
            return body(here)
        return choose

    def branch(self, here, value, arms, other, at):
        """The branch that takes a value, whose variable is set."""
        dynamic = type_of(value)
        for ty, var, body in arms:
            if self.takes(ty, dynamic):
                here.variables[var] = self.narrowed(ty, value)
                return body
        return other or self.state.fault(NO_BRANCH, at)

    def takes(self, ty, dynamic):
        return dynamic is not None and ty in self.above[dynamic]

    def narrowed(self, ty, value):
        return unwrapped(value) if self.is_immutable(ty) else value

    def stmt_protect(self, body, arms, other):
        body = self.statements(body)
        arms = [(ty, self.statements(arm)) for ty, _, arm in arms]
        other = None if other is None else self.statements(other)

        def protect(here):
            try:
                return body(here)
            except Raised as one:
                raised = one
            dynamic = type_of(raised.value)
            for ty, arm in arms:
                if self.takes(ty, dynamic):
                    return with_exception(here, self.narrowed(ty, raised.value), arm)
            if other is None:
                raise raised
            return with_exception(here, raised.value, other)
        return protect

    def stmt_return(self, value):
        if value is None:
            return lambda here: Returning(None)
        value = self.expression(value)
        return lambda here: Returning(value(here))

    def stmt_quit(self):
        return lambda here: QUIT

    def stmt_raise(self, value, at):
        value = self.expression(value)

        def throw(here):
            raised = value(here)
            if raised is None:
                self.state.fault(VOID, at)
            raise Raised(raised, UNCAUGHT, at)
        return throw

    def stmt_stop(self, kind, at):
        return lambda here: self.state.fault(kind, at)

    # ---- statements of iters

    def unfold_all(self, stmts):
        """Statements as a generator of what they yield."""
        parts = [(yields(s), self.unfold(s) if yields(s) else self.statement(s)) for s in stmts]

        def execute(here):
            for is_generator, part in parts:
                flow = (yield from part(here)) if is_generator else part(here)
                if flow is not None:
                    return flow
            return None
        return execute

    def unfold(self, s):
        return getattr(self, 'unfold_' + s[0].lower())(*s[1:])

    def unfold_yield(self, value):
        value = (lambda here: None) if value is None else self.expression(value)

        def give(here):
            yield value(here)
        return give

    def unfold_if(self, tests, other):
        entries = [(entry, self.unfold_all(body)) for entry, body in self.tests(tests)]
        other = self.unfold_all(other)

        def choose(here):
            return (yield from first_true(here, entries, other)(here))
        return choose

    def unfold_loop(self, number, body):
        body = self.unfold_all(body)

        def loop(here):
            self.clear_loop(here, number)
            while True:
                self.state.turn()
                try:
                    flow = yield from body(here)
                except Broke:
                    self.end_loop(here, number)
                    return None
                except Raised:
                    self.end_loop(here, number)
                    raise
                if flow is not None:
                    self.end_loop(here, number)
                    return flow
        return loop

    def unfold_typecase(self, var, arms, other, at):
        arms = [(ty, bound, self.unfold_all(body)) for ty, bound, body in arms]
        other = None if other is None else self.unfold_all(other)

        def choose(here):
            body = self.branch(here, here.variables[var], arms, other, at)
            return (yield from body(here))
        return choose
