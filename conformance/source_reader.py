"""Reads sources by the rules of docs/LANGUAGE.md: the tokens, then the words and the levels, then the grammar. It shares nothing
with the compiler that it judges, and tells the refusal of a source by these rules, E01 to E08, or that there is none."""
import functools
import re
import sys

LARGEST = 4_194_304
DEEPEST = 200
RECURSION = 20_000      # calls of Python inside one another, for the deepest source
WORDS = set(b"""abstract and assert attr bind builtin case class const else elsif end exception false if immutable in include inout is
    loop new once or out partial private protect quit raise readonly return self shared stub then true typecase void when yield
    ITER ROUT SAME pre post initial result invariant""".split())
REFUSED_WORDS = set(b'external spread fork par parloop lock unlock guard cohort sync near far'.split())
SYMBOLS = {word: word.decode() for word in WORDS | REFUSED_WORDS}
NOT_TAKEN = {SYMBOLS[word] for word in REFUSED_WORDS}
SIGNS = rb'::=|:=|::|/=|<=|>=|->|[()\[\]{},;:.=<>+\-*/%^~#|_]'

MARK = b'\xef\xbb\xbf'       # a byte order mark, which is a blank at the beginning of a file
GAP = re.compile(rb'(?:[ \t\n\f\r]|--[^\n]*)*')
NAME = re.compile(rb'[A-Za-z][A-Za-z0-9_]*')
ITER_NAME = re.compile(rb'(?=[A-Z0-9_]*[a-z])[A-Za-z][A-Za-z0-9_]*!')
ABSTRACT_NAME = re.compile(rb'\$[A-Z][A-Z0-9_]*')
NUMBERS = [(16, re.compile(rb'0x([0-9a-fA-F][0-9a-fA-F_]*)')), (8, re.compile(rb'0o([0-7][0-7_]*)')),
           (2, re.compile(rb'0b([01][01_]*)')), (10, re.compile(rb'([0-9][0-9_]*)'))]
PREFIX = re.compile(rb'0[xob]')
GOES_ON = re.compile(rb'[A-Za-z0-9]|\.[0-9]')
LITERALS = {quote: re.compile(rb'%b((?:[^%b\\\n]|\\[^\n])*)%b' % (quote, quote, quote)) for quote in (b"'", b'"')}
ITEM = re.compile(rb'\\[0-7]{1,3}|\\.|[^\\]', re.S)
KINDS = ((b'INAME', ITER_NAME.pattern), (b'name', NAME.pattern), (b'ANAME', ABSTRACT_NAME.pattern))
BEGINNING = re.compile(b'|'.join(rb'(?P<%b>%b)' % one for one in (
    *KINDS, (b'number', b'[0-9]'), (b'character', b"'"), (b'text', b'"'), (b'sign', SIGNS))))
# Tokens as most are spelled, each with the gap behind it. None of these can be another token, or none.
KNOWN = rb'\\(?:[0-3][0-7][0-7]|[0-7]{1,2}(?![0-7])|[abfnrtv\\\'"])'
PLAIN = re.compile(rb'(?:%b)%b' % (b'|'.join(rb'(?P<%b>%b)' % one for one in (
    *KINDS, (b'sign', SIGNS), (b'number', rb'[0-9]{1,9}(?![0-9A-Za-z_]|\.[0-9])'), (b'character', rb"'(?:[^'\\\n]|%b)'" % KNOWN),
    (b'text', rb'"[^"\\\n]*(?:%b[^"\\\n]*)*"' % KNOWN))), GAP.pattern))
ESCAPED = b'abfnrtv\\\'"'

MODES = ('in', 'out', 'inout', 'once')
LOGICAL, COMPARING, ADDING, MULTIPLYING = ('and', 'or'), ('=', '/=', '<', '<=', '>', '>='), ('+', '-'), ('*', '/', '%')
INFIX = {*LOGICAL, *COMPARING, *ADDING, *MULTIPLYING}
TYPES = ('CNAME', 'ANAME', 'SAME', 'ROUT', 'ITER')
FEATURES = ('LNAME', 'INAME')
EXPRESSIONS = ('-', '~', 'number', 'character', 'text', 'true', 'false', 'self', 'exception', '(', 'void', 'new', '#', '|', 'bind', '[',
               *FEATURES, *TYPES)
BLOCKS = ('if', 'loop', 'case', 'typecase', 'protect')
STATEMENTS = (*BLOCKS, 'return', 'yield', 'quit', 'raise', 'assert', *EXPRESSIONS)
DECLARED = ('attr', 'shared')
MEMBERS = ('private', 'readonly', 'const', 'include', 'stub', 'invariant', *DECLARED, *FEATURES)
CLASSES = ('abstract', 'class', 'immutable', 'partial')
END = 'the end'


class Refused(Exception):
    """A rule that a source breaks, by its code, and the byte at which it stands."""

    def __init__(self, code, at):
        super().__init__(code)
        self.code, self.at = code, at


class Token:
    """A token: its symbol in the grammar, which is its kind, or itself where it is a word or a sign, and the bytes it spans."""
    __slots__ = ('symbol', 'at', 'end')

    def __init__(self, symbol, at, end):
        self.symbol, self.at, self.end = symbol, at, end


# ---- tokens

def number_end(text, at):
    """The end of the number at a place."""
    if PREFIX.match(text, at) and not any(form.match(text, at) for base, form in NUMBERS if base != 10):
        raise Refused('E04', at)
    base, found = next((base, found) for base, form in NUMBERS for found in [form.match(text, at)] if found)
    if int(found.group(1).replace(b'_', b''), base) >= 2 ** 31:
        raise Refused('E03', at)
    if GOES_ON.match(text, found.end()):
        raise Refused('E04', at)
    return found.end()


def is_known(item):
    """Whether an item of a literal stands for a byte."""
    if not item.startswith(b'\\'):
        return True
    return int(item[1:], 8) < 256 if item[1:2].isdigit() and item[1:2] < b'8' else item[1:] in [bytes([byte]) for byte in ESCAPED]


def literal_end(text, at):
    """The end of the character or the text at a place."""
    found = LITERALS[text[at:at + 1]].match(text, at)
    items = list(ITEM.finditer(found.group(1))) if found else []
    if not found or text[at:at + 1] == b"'" and len(items) != 1:
        raise Refused('E02', at)
    for item in items:
        if not is_known(item.group()):
            raise Refused('E05', at + 1 + item.start())
    return found.end()


def read_token(text, at):
    """The longest token at a place."""
    found = BEGINNING.match(text, at)
    if not found:
        raise Refused('E01', at)
    kind = found.lastgroup
    if kind == 'number':
        return Token(kind, at, number_end(text, at))
    if kind in ('character', 'text'):
        return Token(kind, at, literal_end(text, at))
    return Token(symbol_of(kind, found.group()), at, found.end())


def symbol_of(kind, spelled):
    """The symbol of a token that begins like one of a kind and is spelled so."""
    if kind == 'name':
        return SYMBOLS.get(spelled) or ('CNAME' if spelled.isupper() else 'LNAME')
    return spelled.decode() if kind == 'sign' else kind


def token_at(text, at):
    """The token at a place, and where the next one would begin."""
    found = PLAIN.match(text, at)
    if found:
        kind = found.lastgroup
        return Token(symbol_of(kind, found.group(kind)), at, found.end(kind)), found.end()
    token = read_token(text, at)
    return token, GAP.match(text, token.end).end()


@functools.lru_cache(maxsize=1)
def tokens_of(text):
    """The tokens of a source, which are kept until another is read."""
    tokens, at = [], GAP.match(text, len(MARK) if text.startswith(MARK) else 0).end()
    while at < len(text):
        token, at = token_at(text, at)
        tokens.append(token)
    return tokens


# ---- words and levels

OPENING = {'(', '[', '{', 'is', *BLOCKS}
CLOSING = {')', ']', '}', 'end'}
COUNTED = {'[', '.', '::', '#', '^', '~', 'ROUT', 'ITER', *LOGICAL, *COMPARING, *ADDING, *MULTIPLYING}
SETTING_BACK = {',', ';', ':=', '::=', 'then', 'else', 'elsif', 'when'}


class Levels:
    """The levels that are open, the innermost one last: each has a count, and tells whether a `|` has opened it."""

    def __init__(self):
        self.open, self.level = [], 0

    def begin(self, by_bar):
        """Opens a level."""
        self.open.append((1, by_bar))
        self.level += 1

    def close(self):
        """Closes the innermost level."""
        if self.open:
            self.level -= self.open.pop()[0]

    def set(self, count):
        """Gives the innermost level a count."""
        if self.open:
            before, by_bar = self.open[-1]
            self.open[-1] = (count, by_bar)
            self.level += count - before

    def bar(self):
        """A `|` closes the level of another one, and else opens its own."""
        if self.open and self.open[-1][1]:
            self.close()
        else:
            self.begin(True)

    def take(self, symbol):
        """Counts a token."""
        if symbol in COUNTED:
            if self.open:
                self.set(self.open[-1][0] + 1)
            else:
                self.begin(False)
        if symbol in OPENING:
            self.begin(False)
        elif symbol in CLOSING:
            self.close()
        elif symbol == '|':
            self.bar()
        elif symbol == 'class':
            self.open, self.level = [], 0
        elif symbol in SETTING_BACK:
            self.set(1)


def scan(tokens):
    """Refuses the first word that isn't taken, or the first token behind which the level is too great."""
    levels = Levels()
    for token in tokens:
        if token.symbol in NOT_TAKEN:
            raise Refused('E08', token.at)
        levels.take(token.symbol)
        if levels.level > DEEPEST:
            raise Refused('E07', token.at)


# ---- the grammar: a method for each production of the page

class Grammar:
    """A place in the tokens of a file. A method reads its production there."""

    def __init__(self, tokens, text):
        self.symbols = [token.symbol for token in tokens] + [END] * 2
        self.places = [token.at for token in tokens] + [len(text)] * 2
        self.spelled = [text[token.at:token.end] for token in tokens]
        self.at = 0
        self.in_post = False    # whether `result` and `initial` may stand

    def next(self):
        return self.symbols[self.at]

    def has(self, *symbols):
        """Whether one of the symbols comes next, which is then read."""
        if self.symbols[self.at] in symbols:
            self.at += 1
            return True
        return False

    def need(self, *symbols):
        if self.symbols[self.at] not in symbols:
            raise Refused('E06', self.places[self.at])
        self.at += 1

    def several(self, part, *separators):
        """x {separator x}"""
        part()
        while self.has(*separators):
            part()

    def listed(self, part, first):
        """[x] {";" [x]}"""
        while True:
            if self.next() in first:
                part()
            if not self.has(';'):
                return

    def between(self, opening, part, closing):
        self.need(opening)
        part()
        self.need(closing)

    # Files and classes

    def file(self):
        self.listed(self.class_, CLASSES)
        self.need(END)

    def class_(self):
        if self.has('abstract'):
            self.need('class')
            self.head('ANAME')
            if self.has('>'):
                self.types()
            self.need('is')
            self.listed(self.sig, FEATURES)
        else:
            is_partial = self.next() == 'partial'
            self.has('immutable', 'partial')
            self.need('class')
            self.head('CNAME')
            self.need('is')
            members = [symbol for symbol in MEMBERS if is_partial or symbol != 'stub']
            self.listed(lambda: self.feature(members), members)
        self.need('end')

    def head(self, name):
        """The name, the parameters and the types above."""
        self.need(name)
        if self.next() == '{':
            self.between('{', lambda: self.several(self.param, ','), '}')
        if self.has('<'):
            self.types()

    def param(self):
        self.need('CNAME')
        if self.has('<'):
            self.type()

    # Types

    def types(self):
        self.several(self.type, ',')

    def type(self):
        if self.next() in ('ROUT', 'ITER'):
            of_iter = self.next() == 'ITER'
            self.has('ROUT', 'ITER')
            if self.next() == '{':
                self.between('{', lambda: self.several(lambda: self.mode_type(of_iter), ','), '}')
            self.result()
        elif not self.has('SAME'):
            self.need('CNAME', 'ANAME')
            if self.next() == '{':
                self.between('{', self.types, '}')

    def mode(self, of_iter):
        self.has(*MODES if of_iter else MODES[:3])

    def mode_type(self, of_iter):
        self.mode(of_iter)
        self.type()

    def result(self):
        if self.has(':'):
            self.type()

    # Features

    def sig(self):
        of_iter = self.next() == 'INAME'
        self.need(*FEATURES)
        if self.next() == '(':
            self.between('(', lambda: self.several(lambda: self.formal(of_iter), ','), ')')
        self.result()

    def formal(self, of_iter):
        self.mode(of_iter)
        self.names()
        self.need(':')
        self.type()

    def names(self):
        self.several(lambda: self.need('LNAME'), ',')

    def feature(self, members):
        """A feature that begins with one of these. An invariant that is read is none of them any more."""
        if self.next() == 'invariant':
            members.remove('invariant')
            return self.invariant()
        if self.has('private'):
            members = [symbol for symbol in members if symbol not in ('private', 'readonly', 'invariant')]
        elif self.has('readonly'):
            members = DECLARED
        if self.next() not in members:
            self.need()
        self.without_access()

    def without_access(self):
        if self.has('stub'):
            self.sig()
        elif self.has('attr'):
            self.names()
            self.need(':')
            self.type()
        elif self.has('shared'):
            self.shared()
        elif self.has('const'):
            self.const()
        elif self.has('include'):
            self.include()
        else:
            self.sig()
            self.clauses()
            self.between('is', self.stmts, 'end')

    def clauses(self):
        if self.has('pre'):
            self.expr()
        if self.has('post'):
            self.condition(True)

    def condition(self, in_post):
        """An expression in which `result` and `initial` may stand, or may not."""
        around, self.in_post = self.in_post, in_post
        self.expr()
        self.in_post = around

    def invariant(self):
        self.need('invariant')
        self.need(':')
        if self.spelled[self.at:self.at + 1] != [b'BOOL']:
            self.need()
        self.need('CNAME')
        self.need('is')
        self.need('return')
        self.expr()
        self.has(';')
        self.need('end')

    def shared(self):
        self.names()
        self.need(':')
        self.type()
        self.assigned()

    def assigned(self):
        if self.has(':='):
            self.expr()

    def const(self):
        self.need('LNAME')
        if self.has(':'):
            self.type()
            self.need(':=')
            self.expr()
        else:
            self.assigned()
            while self.has(','):
                self.need('LNAME')

    def include(self):
        self.type()
        if self.next() in FEATURES:
            self.several(self.change, ',')

    def change(self):
        self.need(*FEATURES)
        self.need('->')
        if self.has('private', 'readonly'):
            self.need(*FEATURES)
        else:
            self.has(*FEATURES)

    # Statements

    def stmts(self):
        self.listed(self.stmt, STATEMENTS)

    def stmt(self):
        symbol = self.next()
        if symbol in BLOCKS:
            getattr(self, symbol + '_')()
        elif self.has('return', 'yield'):
            if self.next() in EXPRESSIONS:
                self.expr()
        elif self.has('raise', 'assert'):
            self.expr()
        elif not self.has('quit'):
            self.simple()

    def simple(self):
        """A declaration, an assignment or an expression alone."""
        behind = self.symbols[self.at + 1]
        if self.next() == 'LNAME' and behind == '::=':
            self.at += 2
            self.expr()
        elif self.next() == 'LNAME' and behind in (',', ':'):
            self.names()
            self.need(':')
            self.type()
            self.assigned()
        else:
            self.expr()
            self.assigned()

    def if_(self):
        self.need('if')
        self.several(lambda: (self.expr(), self.need('then'), self.stmts()), 'elsif')
        self.rest()

    def rest(self):
        """The `else` and the `end` of a block."""
        if self.has('else'):
            self.stmts()
        self.need('end')

    def loop_(self):
        self.between('loop', self.stmts, 'end')

    def branches(self, head):
        while self.has('when'):
            head()
            self.need('then')
            self.stmts()
        self.rest()

    def case_(self):
        self.need('case')
        self.expr()
        self.branches(lambda: self.several(self.expr, ','))

    def typecase_(self):
        self.need('typecase')
        self.need('LNAME')
        self.branches(self.type)

    def protect_(self):
        self.need('protect')
        self.stmts()
        self.branches(self.type)

    # Expressions. How strongly infix signs bind changes nothing of which token may follow, so that they are read as one list. In an
    # array literal without a bracket between, a `|` ends it

    def expr(self, in_array=False):
        self.unary(in_array)
        while self.symbols[self.at] in INFIX:
            self.at += 1
            self.unary(in_array)

    def unary(self, in_array):
        while self.has('-', '~'):
            pass
        self.power(in_array)

    def power(self, in_array):
        self.post(in_array)
        while self.has('^'):
            self.post(in_array)

    def post(self, in_array=False):
        self.first(in_array)
        while self.next() in ('.', '['):
            if self.has('.'):
                self.call()
            else:
                self.index()

    def index(self):
        self.between('[', lambda: self.several(self.expr, ','), ']')

    def call(self):
        self.need(*FEATURES)
        self.args()

    def args(self):
        if self.next() == '(':
            self.between('(', lambda: self.several(self.arg, ','), ')')

    def arg(self):
        if self.has('_'):
            self.result()
        else:
            self.has('out', 'inout')
            self.expr()

    def first(self, in_array):
        symbol = self.next()
        if symbol in FEATURES:
            self.call()
        elif symbol in TYPES:
            self.type()
            self.need('::')
            self.call()
        elif symbol == '(':
            self.between('(', self.expr, ')')
        elif symbol == '[':
            self.index()
        elif symbol == '|' and not in_array:
            self.between('|', lambda: self.several(lambda: self.expr(True), ','), '|')
        elif self.has('text'):
            while self.has('text'):
                pass
        elif self.has('void', 'new'):
            if self.next() == '(':
                self.between('(', self.expr, ')')
        elif self.in_post and self.has('initial'):
            self.between('(', lambda: self.condition(False), ')')
        elif self.in_post and self.has('result'):
            pass
        elif self.has('bind'):
            self.between('(', self.post, ')')
        elif self.has('#'):
            if self.next() in TYPES:
                self.type()
            self.args()
        else:
            self.need('number', 'character', 'true', 'false', 'self', 'exception')


def line_of(text, at):
    """The line of a place."""
    return text.count(b'\n', 0, at) + 1


def refusal(text):
    """The code and the line with which the source of one file is refused by these rules, or None."""
    sys.setrecursionlimit(max(RECURSION, sys.getrecursionlimit()))
    try:
        if len(text) > LARGEST:
            raise Refused('E50', LARGEST)
        tokens = tokens_of(text)
        scan(tokens)
        Grammar(tokens, text).file()
    except Refused as fault:
        return fault.code, line_of(text, fault.at)
    return None
