"""Makes random sources from the grammar of docs/LANGUAGE.md: each is a file of that grammar, in tokens with blanks and comments
between them, nested far less deep than the limit. Few of them are well typed."""

KNOWN = ('INT', 'INT', 'BOOL', 'CHAR', 'STR', '$OB', '$STR', 'SAME', 'MAIN')
KNOWN_WITH_ONE = ('ARRAY', 'FLIST')
CLASSES = {'A': 0, 'B': 0, '$A': 0, 'C': 1, '$B': 1, 'D': 2}     # how many parameters each has
NAMES = ('a', 'b', 'c', 'x', 'f', 'g', 'size', 'str', 'create', 'plus', 'is_eq', 'aget', 'call')
ITERS = ('f!', 'g!', 'upto!', 'elt!', 'call!', 'while!', 'until!', 'break!')
NUMBERS = ('0', '1', '2', '7', '0x1F', '0b1_0', '0o17', '1_000', '2147483647')
CHARACTERS = ("'a'", r"'\n'", r"'\377'", "' '", r"'\''")
TEXTS = ('""', '"a"', r'"\x"'.replace('x', 'n'), r'"\0\\"', '"--"', "\"'\"")
INFIX = ('+', '-', '*', '/', '%', '=', '/=', '<', '<=', '>', '>=', 'and', 'or', '^')
GAPS = (' ', ' ', ' ', ' ', '\n', '\n', '\t', '\r\n', ' -- a comment "\n', '\f')
TIGHT = set('()[],;')
DEEPEST = 5     # expressions, types and statements inside one another


class Sentence:
    """A source while it is made. A method gives the tokens of its production. `deep` says how many of the kind are around it."""

    def __init__(self, rng, contracts):
        self.rng, self.params = rng, ()
        self.of_contracts = 10 if contracts else 0      # of a hundred places so many have one
        self.in_post = False    # whether `result` and `initial` may stand
        self.classes = [name for name in CLASSES if self.some(50)]

    def some(self, percent):
        return self.rng.random() * 100 < percent

    def pick(self, choices):
        return self.rng.choice(choices)

    def maybe(self, percent, part, *given):
        """[x]"""
        return part(*given) if self.some(percent) else []

    def several(self, separator, most, part, *given):
        """x {separator x}"""
        made = part(*given)
        for _ in range(self.rng.randrange(most)):
            made += [separator, *part(*given)]
        return made

    def listed(self, most, part, *given):
        """[x] {";" [x]}"""
        made = []
        for _ in range(self.rng.randrange(most + 1)):
            made += self.maybe(95, part, *given) + [';']
        return made[:-1] if self.some(30) else made

    # Files and classes

    def file(self):
        made = []
        for name in self.classes:
            made += self.class_(name, CLASSES[name]) + [';']
        return made + self.class_('MAIN', 0)

    def class_(self, name, count):
        self.params = ('S', 'T')[2 - count:]
        if name.startswith('$'):
            above = self.maybe(5, self.types_behind, '>')
            return ['abstract', 'class', *self.head(name), *above, 'is', *self.listed(3, self.sig), 'end']
        kind = [self.pick(('immutable', 'partial'))] if name != 'MAIN' and self.some(30) else []
        features = self.maybe(self.of_contracts, lambda: [*self.invariant(), ';']) + self.listed(3, self.feature, kind == ['partial'])
        if name == 'MAIN':
            features = ['main', 'is', *self.stmts(0), 'end', ';', *features]
        return [*kind, 'class', *self.head(name), 'is', *features, 'end']

    def head(self, name):
        made = [name]
        for place, param in enumerate(self.params):
            made += ['{' if place == 0 else ',', param, *self.maybe(10, self.bound)]
        return made + (['}'] if self.params else []) + self.maybe(25, self.types_behind, '<')

    def types_behind(self, sign):
        """Types that a class is put below, mostly abstract ones."""
        if self.some(10):
            return [sign, *self.several(',', 2, self.type, 3)]
        return self.bound(sign)

    def bound(self, sign='<'):
        return [sign, self.pick([name for name in self.classes if name == '$A'] + ['$OB', '$STR'])]

    # Types

    def type(self, deep=0):
        way = self.rng.randrange(10)
        if deep >= DEEPEST or way < 6:
            return [self.pick([*KNOWN, *self.params, *self.with_params(0)])]
        if way < 8:
            return [self.pick([*KNOWN_WITH_ONE, *self.with_params(1)]), '{', *self.type(deep + 1), '}']
        if way == 8 and self.with_params(2):
            return ['D', '{', *self.type(deep + 1), ',', *self.type(deep + 1), '}']
        word = self.pick(('ROUT', 'ITER'))
        args = ['{', *self.several(',', 3, self.mode_type, word == 'ITER', deep + 1), '}'] if self.some(70) else []
        return [word, *args, *self.maybe(60, self.result, deep + 1)]

    def with_params(self, count):
        """The names of the source's own classes that have so many parameters."""
        return [name for name in self.classes if CLASSES[name] == count]

    def mode(self, of_iter):
        modes = ('in', 'out', 'inout', 'once') if of_iter else ('in', 'out', 'inout')
        return [self.pick(modes)] if self.some(30) else []

    def mode_type(self, of_iter, deep):
        return self.mode(of_iter) + self.type(deep)

    def result(self, deep=0):
        return [':', *self.type(deep)]

    # Features

    def name(self):
        return [self.pick(NAMES)]

    def feature_name(self):
        return [self.pick(ITERS[:2])] if self.some(25) else self.name()

    def sig(self):
        name = self.feature_name()
        formals = ['(', *self.several(',', 3, self.formal, name[0].endswith('!')), ')'] if self.some(60) else []
        return name + formals + self.maybe(60, self.result)

    def formal(self, of_iter):
        return [*self.mode(of_iter), *self.several(',', 2, self.name), *self.result()]

    def feature(self, in_partial):
        ways = [self.routine, self.routine, self.routine, self.attr, self.attr, self.shared, self.const, self.include]
        return self.pick(ways + [self.stub] * in_partial)()

    def access(self, *words):
        return [self.pick(words)] if self.some(20) else []

    def routine(self):
        return [*self.access('private'), *self.sig(), *self.clauses(), 'is', *self.stmts(0), 'end']

    def clauses(self):
        pre = self.maybe(self.of_contracts, lambda: ['pre', *self.expr(2)])
        return pre + self.maybe(self.of_contracts, lambda: ['post', *self.condition(2, True)])

    def condition(self, deep, in_post):
        """An expression in which `result` and `initial` may stand, or may not."""
        around, self.in_post = self.in_post, in_post
        made = self.expr(deep)
        self.in_post = around
        return made

    def invariant(self):
        return ['invariant', ':', 'BOOL', 'is', 'return', *self.expr(2), *self.maybe(50, lambda: [';']), 'end']

    def stub(self):
        return [*self.access('private'), 'stub', *self.sig()]

    def attr(self):
        return [*self.access('private', 'readonly'), 'attr', *self.several(',', 3, self.name), *self.result()]

    def shared(self):
        return [*self.access('private', 'readonly'), 'shared', *self.several(',', 2, self.name), *self.result(),
                *self.maybe(60, self.assigned)]

    def assigned(self, deep=2):
        return [':=', *self.expr(deep)]

    def const(self):
        if self.some(50):
            return [*self.access('private'), 'const', *self.name(), *self.result(), *self.assigned()]
        more = [part for _ in range(self.rng.randrange(3)) for part in (',', self.pick(NAMES))]
        return [*self.access('private'), 'const', *self.name(), *self.maybe(60, self.assigned), *more]

    def include(self):
        own = [[name] for name in ('A', 'B') if name in self.classes]
        of = self.type(3) if self.some(10) else self.pick([['AREF', '{', 'INT', '}'], *own])
        return [*self.access('private'), 'include', *of, *self.maybe(20, self.several, ',', 2, self.change)]

    def change(self):
        return [*self.feature_name(), '->', *self.maybe(70, self.new_name)]

    def new_name(self):
        return self.access('private', 'readonly') + self.feature_name()

    # Statements

    def stmts(self, deep):
        return self.listed(3 if deep < 2 else 1, self.stmt, deep)

    def stmt(self, deep):
        ways = [self.declare, self.declare_by_value, self.simple, self.simple, self.leave]
        if deep < DEEPEST:
            ways += [self.if_, self.loop, self.case, self.typecase, self.protect]
        return self.pick(ways)(deep + 1)

    def declare(self, _deep):
        return [*self.several(',', 2, self.name), *self.result(), *self.maybe(60, self.assigned)]

    def declare_by_value(self, _deep):
        return [*self.name(), '::=', *self.expr(2)]

    def simple(self, _deep):
        return self.expr(2) + self.maybe(40, self.assigned)

    def leave(self, _deep):
        word = self.pick(('return', 'yield', 'quit', 'raise', 'assert'))
        if word in ('return', 'yield'):
            return [word, *self.maybe(60, self.expr, 2)]
        return [word] if word == 'quit' else [word, *self.expr(2)]

    def if_(self, deep):
        made = ['if', *self.expr(2), 'then', *self.stmts(deep)]
        while self.some(20):
            made += ['elsif', *self.expr(2), 'then', *self.stmts(deep)]
        return made + self.rest(deep)

    def rest(self, deep):
        return (['else', *self.stmts(deep)] if self.some(40) else []) + ['end']

    def loop(self, deep):
        return ['loop', *self.stmts(deep), 'end']

    def branches(self, deep, head):
        made = []
        for _ in range(self.rng.randrange(3)):
            made += ['when', *head(), 'then', *self.stmts(deep)]
        return made + self.rest(deep)

    def case(self, deep):
        return ['case', *self.expr(2), *self.branches(deep, lambda: self.several(',', 2, self.expr, 3))]

    def typecase(self, deep):
        return ['typecase', *self.name(), *self.branches(deep, self.type)]

    def protect(self, deep):
        return ['protect', *self.stmts(deep), *self.branches(deep, self.type)]

    # Expressions

    def expr(self, deep, in_array=False):
        made = self.unary(deep, in_array)
        while deep < DEEPEST and self.some(25):
            made += [self.pick(INFIX[:-1]), *self.unary(deep + 1, in_array)]
        return made

    def unary(self, deep, in_array):
        if self.some(8):
            return [self.pick('-~'), *self.unary(deep, in_array)]
        return self.post(deep, in_array) + self.maybe(4, self.power, deep, in_array)

    def power(self, deep, in_array):
        return ['^', *self.post(deep, in_array)]

    def post(self, deep, in_array=False):
        made = self.first(deep, in_array)
        while self.some(20):
            made += ['.', *self.call(deep + 1)] if self.some(70) else self.index(deep + 1)
        return made

    def index(self, deep):
        return ['[', *self.several(',', 2, self.expr, deep), ']']

    def call(self, deep):
        name = [self.pick(ITERS)] if self.some(25) else self.name()
        return name + self.args(deep, 40)

    def args(self, deep, percent):
        return ['(', *self.several(',', 3, self.arg, deep + 1), ')'] if deep < DEEPEST and self.some(percent) else []

    def arg(self, deep):
        if self.some(10):
            return ['_', *self.maybe(40, self.result)]
        return self.maybe(10, lambda: [self.pick(('out', 'inout'))]) + self.expr(deep)

    def first(self, deep, in_array):
        if self.in_post and self.some(20):
            return self.result_or_initial(deep + 1)
        if deep >= DEEPEST or self.some(60):
            return self.leaf()
        ways = [self.class_call, self.parenthesised, self.bind, self.new_object, self.of_void, self.index]
        return self.pick(ways if in_array else ways + [self.array])(deep + 1)

    def leaf(self):
        kinds = (NUMBERS, NAMES, NAMES, CHARACTERS, TEXTS, ('true', 'false', 'self', 'exception', 'void', 'new', '#'))
        return [self.pick(self.pick(kinds))]

    def result_or_initial(self, deep):
        return ['result'] if self.some(50) else ['initial', '(', *self.condition(deep, False), ')']

    def class_call(self, deep):
        return [*self.type(3), '::', *self.call(deep)]

    def parenthesised(self, deep):
        return ['(', *self.expr(deep), ')']

    def bind(self, deep):
        return ['bind', '(', *self.post(deep), ')']

    def new_object(self, deep):
        return ['#', *self.maybe(85, self.type, 3), *self.args(deep, 60)]

    def of_void(self, deep):
        return [self.pick(('void', 'new')), '(', *self.expr(deep), ')']

    def array(self, deep):
        return ['|', *self.several(',', 3, self.expr, deep, True), '|']


def spelled(rng, tokens):
    """The source of some tokens: what has to be parted is parted."""
    made = ''
    for token in tokens:
        tight = not made or made[-1] in TIGHT or token in TIGHT
        made += '' if tight and rng.random() < 0.7 else rng.choice(GAPS)
        made += token
    return made.encode() + rng.choice((b'', b'\n', b';\n'))


def sentence(rng, contracts):
    """A random source, in which contracts may stand where they are taken."""
    return spelled(rng, Sentence(rng, contracts).file())
