"""The deepest sources and modules that the limits allow: one for each form that nests and for each kind of chain."""
import binary
from report import Left

LEVELS = 198        # of 200, since a class and a routine are around each statement
CHAIN = 1900        # classes of a chain: with those of the prelude fewer than 2,000 are needed
BLOCKS = 1000       # blocks inside one another in a function of a module
DEPTH = 9990        # calls that run at a time, of 10,000
BLOCK, LOOP, IF, ELSE, END = b'\x02', b'\x03', b'\x04', b'\x05', b'\x0b'
BR_TABLE, RETURN, CALL, DROP = b'\x0e', b'\x0f', b'\x10', b'\x1a'


def main_of(statements, features='', classes=''):
    """A source whose `main` has these statements."""
    return 'class MAIN is %s main is %s end; end; %s' % (features, statements, classes)


def nested(before, inside, after, times=LEVELS):
    """A text inside so many pairs of others."""
    return before * times + inside + after * times


def printed(value, features='', classes=''):
    """A source that prints a value."""
    return main_of('x ::= %s; #OUT + x;' % value, features, classes)


def expressions():
    """Expressions inside one another: the name, the source, and what it prints."""
    one = 'f(a:INT):INT is return a; end; f!(a:INT):INT is yield a; end;'
    links = 'class C < $C is attr c:C; attr n:INT; create(c:C):SAME is r ::= new; r.c := c; r.n := 1; return r; end;' \
            ' f(c:$C):$C is return self; end; end; abstract class $C is f(c:$C):$C; end;'
    yield 'parentheses', printed(nested('(', '1', ')')), '1'
    yield 'calls', printed(nested('f(', '1', ')'), one), '1'
    yield 'iter calls in arguments', main_of('loop x ::= %s; #OUT + x; break!; end;' % nested('f!(', '1', ')', 197), one), '1'
    yield 'calls of a class', printed(nested('MAIN::f(', '1', ')', 99), one), '1'
    yield 'dispatched calls', main_of('c:$C := #C(void); d ::= %s; #OUT + "d";' % nested('c.f(', 'c', ')', 99), '', links), 'd'
    yield 'calls of what calls give', printed('1' + '.abs' * 197), '1'
    yield 'attributes of attributes', main_of('c ::= #C(void); c.c := c; #OUT + c%s.n;' % ('.c' * 195), '', links), '1'
    yield 'calls of bound values', printed(nested('bind(f(_)).call(', '1', ')', 99), one), '1'
    yield 'receivers of binds', printed('bind(1%s.plus(_)).call(1)' % ('.abs' * 195)), '2'
    yield 'binds in arguments', printed(nested('bind(f(_)).call(f(', '1', '))', 66), one), '1'
    yield 'objects', main_of('c ::= %s; #OUT + c.n;' % nested('#C(', 'void', ')', 99), '', links), '1'
    yield 'objects of the context', main_of('c:C := %s; #OUT + c.n;' % nested('#(', 'void', ')', 99), '', links), '1'
    yield 'indices', main_of('a ::= #ARRAY{INT}(1); #OUT + %s;' % nested('a[', '0', ']', 98)), '0'
    yield 'indices of self', printed(nested('[', '3', ']', 99), 'aget(i:INT):INT is return i; end;'), '3'
    yield 'arrays in arguments', printed(nested('g(|', '1', '|)', 98), 'g(a:ARRAY{INT}):INT is return a[0]; end;'), '1'
    yield 'void of void', printed(nested('void(', '1', ')')), 'true'
    yield 'signs', printed('- ' * 196 + '1'), '1'
    yield 'negations', printed('~' * 196 + 'true'), 'true'
    yield 'sums to the left', printed('1' + ' + 1' * 196), '197'
    yield 'sums to the right', printed(nested('(1 + ', '1', ')', 98)), '99'
    yield 'powers', printed('1' + ' ^ 1' * 196), '1'
    yield 'and', printed('true' + ' and true' * 196), 'true'
    yield 'and inside or', printed(nested('(true and (false or ', 'true', '))', 49)), 'true'
    yield 'comparisons inside one another', printed(nested('(true = ', 'true', ')', 98)), 'true'


def statements():
    """Statements inside one another."""
    for name, before, after in (
            ('if', 'if true then ', ' end;'), ('else', 'if false then else ', ' end;'),
            ('elsif', 'if false then elsif true then ', ' end;'), ('loop', 'loop ', ' break!; end;'),
            ('case', 'case x when 1 then ', ' end;'), ('else of a case', 'case x when 2 then else ', ' end;'),
            ('typecase', 'typecase o when INT then ', ' end;'), ('else of a typecase', 'typecase o when STR then else ', ' end;'),
            ('protect', 'protect ', ' when STR then end;'), ('branch of a protect', 'protect raise "a"; when STR then ', ' end;')):
        # The numbers of a case and a typecase are variables, of which a routine has 200 with two of its own.
        yield name, main_of('x ::= 1; o:$OB := 1; ' + nested(before, '#OUT + "a";', after, LEVELS - 2)), 'a'


def types():
    """Types inside one another, and chains of classes."""
    def chain(first, link):
        # In a link I stands for the number of a class, and J for the one before it.
        return first + ' '.join(link.replace('J', str(number - 1)).replace('I', str(number)) for number in range(1, CHAIN))
    last = CHAIN - 1
    yield 'types', main_of('x:%s; #OUT + void(x);' % nested('ARRAY{', 'INT', '}', 7)), 'true'
    yield 'bound types', main_of('x:%s; #OUT + void(x);' % nested('ROUT{', 'INT', '}', 7)), 'true'
    yield 'results of bound types', main_of('x:%s; #OUT + void(x);' % ('ROUT:' * 7 + 'INT')), 'true'
    inner = nested('C{', 'INT', '}', 5)
    yield 'bounds of parameters', main_of('x:B{C{%s}}; #OUT + void(x);' % inner, '', (
        'class B{T < $C{%s}} is end; class C{T} < $C{T} is end; abstract class $C{T} is end;' % inner)), 'true'
    yield 'supertypes', main_of('a:$A0 := #C; #OUT + "a";', '', chain('abstract class $A0 is end; ', 'abstract class $AI < $AJ is end;')
                                + ' class C < $A%d is create:SAME is return new; end; end;' % last), 'a'
    yield 'subtypes', main_of('a:$A0; #OUT + void(a);', '', chain('', 'abstract class $AJ > $AI is end;')
                              + ' abstract class $A%d is end;' % last), 'true'
    yield 'includes', main_of('#OUT + f;', 'include C%d;' % last, chain('class C0 is f:INT is return 1; end; end; ',
                                                                       'class CI is include CJ; end;')), '1'
    yield 'attributes of immutable classes', main_of('x:C%d; #OUT + void(x);' % last, '', chain(
        'immutable class C0 is attr a:INT; end; ', 'immutable class CI is attr a:CJ; end;')), 'true'
    yield 'instances of parameters', main_of('x:C%d{INT}; #OUT + void(x);' % last, '', chain(
        'class C0{T} is attr a:T; end; ', 'class CI{T} is attr a:CJ{T}; end;')), 'true'
    yield 'constants', main_of('#OUT + c0;', ''.join('const c%d:INT := c%d + 1; ' % (n, n + 1) for n in range(9999))
                               + 'const c9999:INT := 1;'), '10000'


def runs():
    """Calls that run inside one another."""
    yield 'recursion', printed('f(%d)' % DEPTH, 'f(n:INT):INT is if n = 0 then return 0; end; return f(n - 1) + 1; end;'), str(DEPTH)
    yield 'a raise through calls', main_of('protect f(%d); when STR then #OUT + exception; end;' % (DEPTH - 10),
                                           'f(n:INT) is if n = 0 then raise "a"; end; f(n - 1); end;'), 'a'
    yield 'iters inside one another', main_of(
        'loop #OUT + f!(%d); end;' % (DEPTH - 10),
        'f!(once n:INT):INT is if n = 0 then yield 1; else loop yield f!(n - 1); end; end; end;'), '1'
    yield 'routines that call the next one', main_of('#OUT + f0;', ''.join(
        'f%d:INT is return f%d; end; ' % (n, n + 1) for n in range(5000)) + 'f5000:INT is return 1; end;'), '1'


def sources():
    """All of them: the name, the source, and what it prints."""
    for kind, some in (('', expressions()), ('statements: ', statements()), ('', types()), ('', runs())):
        for name, source, output in some:
            yield kind + name, source, output


def module_of(body):
    """A module whose `main` has no result and this body, without the last `end`."""
    return binary.PREAMBLE + b''.join((
        binary.section(1, binary.vector([binary.func_type([], [])])), binary.section(3, binary.vector([binary.unsigned(0)])),
        binary.section(7, binary.vector([binary.counted(b'main') + b'\0\0'])),
        binary.section(10, binary.vector([binary.counted(b'\0' + body + END)]))))


def modules():
    """Modules whose code nests as deep as it may: the name, the bytes, and what `exec m` leaves."""
    empty, number, one = bytes([binary.EMPTY]), bytes([binary.I32]), binary.i32_const(1)
    labels = binary.vector([binary.unsigned(label) for label in range(BLOCKS)]) + binary.unsigned(BLOCKS)
    for name, body in (('blocks', nested(BLOCK + empty, b'', END, BLOCKS)),
                       ('loops', nested(LOOP + empty, b'', END, BLOCKS)),
                       ('conditions', nested(one + IF + empty, b'', END, BLOCKS)),
                       ('other branches', nested(binary.i32_const(0) + IF + empty + ELSE, b'', END, BLOCKS)),
                       ('blocks with a result', nested(BLOCK + number, one, END, BLOCKS) + DROP),
                       ('blocks behind a return', RETURN + nested(BLOCK + empty, b'', END, BLOCKS)),
                       ('a branch to a thousand labels', nested(BLOCK + empty, one + BR_TABLE + labels, END, BLOCKS)),
                       ('a hundred thousand operands', one * 100_000 + DROP * 100_000)):
        yield name, module_of(body), Left()
    yield 'calls', module_of(CALL + binary.unsigned(0)), Left(lines=b'm: too deep\n', status=126)
