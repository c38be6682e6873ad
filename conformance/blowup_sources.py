"""Sources within the limit of their size that are built to cost time or memory far beyond it, for each phase of the compiler. What
each is answered by comes from the rules of docs/LANGUAGE.md; want of memory is an answer where docs/DECISIONS.md says that no limit
of the language bounds what the source asks for."""
from blowup import NO_MEMORY, accepted, built, faulted, of_source, one_of, printed, refused, slow
from deep import main_of, nested

LARGEST = 4_194_304
MAIN = 'class MAIN is main is end; end;\n'
KINDS = 100         # classes of which pairs are made


def numbered(count, text, first=0):
    """The text once for each number, which stands for `@`. `<@` is the number below it."""
    return ''.join(text.replace('<@', str(number - 1)).replace('@', str(number)) for number in range(first, first + count))


def filled(before, part, after):
    """A source that has as many of the part between two texts as the limit allows."""
    return before + part * ((LARGEST - len(before) - len(after)) // len(part)) + after


def filled_main(before, part, after):
    """The same, with a `main` of these statements."""
    return filled('class MAIN is main is ' + before, part, after + ' end; end;')


def main_with(features, statements=''):
    """A class MAIN with these features."""
    return 'class MAIN is %s main is %s end; end;' % (features, statements)


def kinds(count=KINDS):
    """Classes without features, of which pairs are made."""
    return numbered(count, 'class K@ is end;')


def pair(number):
    """Two numbers of these classes, for each number others."""
    return number % KINDS, number // KINDS


def check(name, source, *wanted):
    return of_source('check f.sa', name, source, one_of(*wanted or [accepted()]))


def build(name, source, *wanted):
    return of_source('build -o m f.sa', name, source, one_of(*wanted or [built()]))


def run(name, source, *wanted):
    return of_source('run f.sa', name, source, one_of(*wanted))


def tokens():
    """Long tokens and many of them."""
    yield check('blanks alone', ' ' * LARGEST, refused(1, 'E24'))
    yield check('a comment alone', '--' + 'x' * (LARGEST - 2), refused(1, 'E24'))
    yield check('a byte past the limit', ' ' * (LARGEST + 1), refused(1, 'E50'))
    before, after = 'class MAIN is main is #OUT + "', '"; end; end;'
    yield run('a text up to the limit', filled(before, 'a', after), printed(b'a' * (LARGEST - len(before + after))))
    yield check('a text of escapes', filled(before, '\\377', after))
    yield check('two million texts that are one', filled(before, '""', after))
    yield check('a name up to the limit', filled_main('', 'x', ';'), refused(1, 'E30'))
    yield check('a number of zeros', filled_main('x ::= ', '0', '1;'))
    yield check('a number of nines', filled_main('x ::= ', '9', '1;'), refused(1, 'E03'))
    yield check('quotes alone', "'" * LARGEST, refused(1, 'E02'))
    yield check('a literal that ends nowhere', '"' + '\\' * (LARGEST - 1), refused(1, 'E02'))
    yield check('lines alone, and then no token', '\n' * (LARGEST - 1) + '?', refused(LARGEST, 'E01'))


def grammar():
    """Levels and forms."""
    yield check('opening parentheses', filled('class MAIN is main is x ::= ', '(', ''), refused(1, 'E07'))
    yield check('closing parentheses', ')' * LARGEST, refused(1, 'E06'))
    yield check('bars', filled('class MAIN is main is x ::= ', '|', ''), refused(1, 'E06'))
    yield check('semicolons between classes', ';' * LARGEST, refused(1, 'E24'))
    yield check('semicolons between features', filled('class MAIN is', ';', 'main is end end'))
    yield check('semicolons between statements', filled_main('', ';', ''))
    yield slow(check)('two million arguments', filled_main('f(1', ',1', ');'), refused(1, 'E30'))
    yield slow(check)('two million formal arguments', filled('class MAIN is main is end;f(a', ',a', ':INT)is end end'), refused(1, 'E43'))
    yield slow(check)('a million types of a class', filled('class C{T} is end;class MAIN is main is x:C{INT', ',INT', '} end end'),
                refused(1, 'E13'))
    yield slow(check)('two million names of one declaration', filled_main('x', ',x', ':INT;'), refused(1, 'E43'))
    yield check('300,000 classes of one name', filled('', 'class A is end;', MAIN), refused(1, 'E10'))
    yield check('190,000 classes', numbered(190_000, 'class A@ is end;') + MAIN)


def classes():
    """Classes with many features."""
    yield check('100,000 features of each name twice', main_with(numbered(100_000, 'f@ is end;f@ is end;')), refused(1, 'E11'))
    overloads = [(*pair(number % 10_000), number // 10_000) for number in range(60_000)]
    written = ''.join('f(a:K%d,b:K%d,c:K%d)is end;' % one for one in overloads)
    yield check('60,000 overloads of one name', kinds() + main_with(written))
    yield check('60,000 overloads, of which the last two conflict', kinds() + main_with(written + 'f(a:K99,b:K99,c:K5)is end;'),
                refused(1, 'E11'))
    yield check('10,000 overloads, each with an abstract argument', kinds() + numbered(7, 'abstract class $K@ is end;') + main_with(
        ''.join('f(a:$K%d,b:K%d,c:K%d)is end;' % (number % 7, *pair(number)) for number in range(10_000))))
    yield check('100,000 attributes', main_with(numbered(100_000, 'attr a@:INT;')))
    yield check('100,000 variables of a routine', main_with('', numbered(100_000, 'v@:INT;')), refused(1, 'E53'))


def includes():
    """Features that includes bring, and their conflicts."""
    words = numbered(24, 'class C@{T} is include C<@{A{T}}; include C<@{B{T}}; end;', 1)
    yield slow(check)('a tower of includes that doubles the features',
                'class C0{T} is f(x:T) is end; end; class A{T} is end; class B{T} is end;' + words + MAIN, accepted(), NO_MEMORY)
    pairs = numbered(40, 'class C@{T} is include C<@{P{T,T}}; end;', 1)
    yield slow(check)('a tower of includes that doubles a type', 'class P{S,T} is end; class C0{T} is f(x:T) is end; end;' + pairs + MAIN,
                accepted(), NO_MEMORY)
    yield slow(check)('20,000 includes in a chain, each with a feature', 'class C0 is f0 is end; end;' + numbered(
        20_000, 'class C@ is include C<@; f@ is end; end;', 1) + MAIN, accepted(), NO_MEMORY)
    yield check('50,000 includes in a chain, each with a change', 'class C0 is f0 is end; end;' + numbered(
        50_000, 'class C@ is include C<@ f<@->f@; end;', 1) + MAIN)
    yield check('100,000 changes of one include', 'class C is %s end; class D is include C %s; end;' % (
        numbered(100_000, 'f@ is end;'), numbered(100_000, 'f@->g@,')[:-1]) + MAIN)
    yield check('100,000 changes of one name', 'class C is f is end; end; class D is include C %s; end;' % (
        numbered(100_000, 'f->g@,')[:-1]) + MAIN)
    yield check('50,000 includes of one class', numbered(50_000, 'class C@ is f@ is end end;') + 'class D is %s end;' % numbered(
        50_000, 'include C@;') + MAIN)
    yield check('50,000 stubs with their bodies', 'partial class C is %s end; class D is include C; %s end;' % (
        numbered(50_000, 'stub f@(x:INT);'), numbered(50_000, 'f@(x:INT) is end;')) + MAIN)
    yield check('50,000 stubs that are left', 'partial class C is %s end; class D is include C; end;' % numbered(
        50_000, 'stub f@(x:INT);') + MAIN, refused(1, 'E22'))
    yield check('60,000 included features that conflict', 'class C is %s end; class D is %s end; class E is include C; include D; end;' % (
        (numbered(60_000, 'f@ is end;'),) * 2) + MAIN, refused(1, 'E17'))
    yield check('a circle of 60,000 includes', numbered(60_000, 'class C@ is include C<@; end;', 1)
                + 'class C0 is include C60000; end;' + MAIN, refused(1, 'E15'))


def diamond(levels, above):
    """Abstract classes, two a level, each below both of the next level by what `above` gives for a class and the next number."""
    return ''.join('abstract class $%s%d%s is end;' % (letter, number, above(number + 1) if number < levels - 1 else above(None))
                   for number in range(levels) for letter in 'AB')


def supertypes():
    """What is above a class."""
    plain = diamond(30, lambda above: '' if above is None else ' < $A%d, $B%d' % (above, above))
    yield check('a diamond of 30 levels', plain + main_of('x:$A0; y:$B29 := x;'))
    of_one = diamond(30, lambda above: '{T}' if above is None else '{T} < $A%d{T}, $B%d{T}' % (above, above))
    yield check('a diamond of 30 levels with a parameter', of_one + main_of('x:$A0{INT}; y:$B29{INT} := x;'))
    turned = diamond(30, lambda above: '{S,T}' if above is None else '{S,T} < $A%d{T,S}, $B%d{S,S}' % (above, above))
    yield check('a diamond of 30 levels that exchanges its parameters', turned + main_of('x:$A0{INT,STR}; y:$A29{STR,INT} := x;'),
                accepted(), NO_MEMORY)
    names = ['P%s' % letter for letter in 'ABCDEFGHIJKLMNOPQRST']
    orders = [','.join(order) for order in (names, names[1:] + names[:1], [names[1], names[0], *names[2:]])]
    ordered = diamond(30, lambda above: '{%s}' % orders[0] if above is None else '{%s} < $A%d{%s}, $B%d{%s}' % (
        orders[0], above, orders[1], above, orders[2]))
    yield check('a diamond of 30 levels that takes 20 parameters in all orders', ordered + main_of(
        'x:$A0{%s};' % ','.join(['INT'] * 20)), accepted(), NO_MEMORY)
    yield slow(check)('supertypes that double their arguments', 'class P{S,T} is end;' + numbered(
        30, 'abstract class $A<@{T} < $A@{P{T,T}} is end;', 1) + 'abstract class $A30{T} is end;' + main_of('x:$A0{INT};'),
        refused(1, 'E52'), NO_MEMORY)
    yield check('a supertype that holds the class in its argument', 'class P{T} is end; abstract class $A{T} < $B{$A{P{T}}} is end;'
                'abstract class $B{T} is end;' + main_of('x:$A{INT}; y:$B{INT} := x;'), refused(1, 'E52'), NO_MEMORY)
    chain = numbered(60_000, 'abstract class $A<@ < $A@ is end;', 1)
    yield check('a chain of 60,000 classes', chain + 'abstract class $A60000 is end;' + main_of('x:$A59000; y:$A60000 := x;'))
    yield check('a circle of 60,000 classes', chain + 'abstract class $A60000 < $A0 is end;' + MAIN, refused(1, 'E18'))
    yield check('100,000 supertypes of one class', numbered(100_000, 'abstract class $A@ is end;')
                + 'class C < %s is end;' % numbered(100_000, '$A@,')[:-1] + MAIN)
    yield check('100,000 subtypes of one class', 'abstract class $A > %s is end;' % numbered(100_000, '$A@,')[:-1]
                + numbered(100_000, 'abstract class $A@ is end;') + MAIN)
    below = ''.join('abstract class $A%d%s is end;' % (n, ' < ' + ','.join('$A%d' % m for m in range(max(n - 300, 0), n)) if n else '')
                    for n in range(1900))
    yield slow(check)('1,900 classes, each below the 300 before it', below + main_of('x:$A1899; y:$A0 := x;'))


def instances():
    """Instances that breed instances, deep and wide types, and bounds."""
    yield check('instances that breed deeper ones', 'class C{T} is attr x:C{C{T}}; end;' + main_of('y:C{INT};'), refused(1, 'E52'))
    breeding = 'class C{S,T} is %s end;' % numbered(45, 'attr a@:C{K@,S}; attr b@:C{T,K@};')
    yield check('instances that breed others of their depth', kinds() + breeding + main_of('x:C{INT,INT};'), refused(1, 'E51'))
    letters, deep = 'ABCDEFGH', 'T'
    for _ in range(6):
        deep = 'W{%s}' % ','.join([deep] * len(letters))
    yield slow(check)('a type of 300,000 parts', 'class W{%s} is end; class C{T} is attr x:%s; end;' % (','.join(letters), deep)
                + main_of('y:C{%s};' % 'W{INT,INT,INT,INT,INT,INT,INT,INT}'), accepted(), NO_MEMORY)
    wide = ','.join(letters)
    breeding = 'class W{%s} is attr x:W{%s}; end;' % (wide, ','.join(['W{%s}' % wide] * len(letters)))
    yield check('instances that are eight times as wide each', breeding + main_of('x:W{%s};' % ','.join(['INT'] * len(letters))),
                refused(1, 'E52'), NO_MEMORY)
    pairs = ''.join('attr a%d:C{K%d,K%d};' % (number, *pair(number)) for number in range(1800))
    features = numbered(100, 'f@(s:S):T is return void; end;')
    yield check('1,800 instances of 100 features each', kinds() + 'class C{S,T} is %s end;' % features + main_with(pairs),
                refused(1, 'E55'))
    attributes = numbered(100_000, 'attr a@:T;')
    yield slow(check)('600 instances of a class of 100,000 attributes', kinds() + 'class C{S,T} is %s end;' % attributes + main_with(
        ''.join('attr a%d:C{K%d,K%d};' % (number, *pair(number)) for number in range(600))))
    bounds = 'abstract class $A{T} is end; class K < $A{K} is end; class B0{T < $A{T}} is end;'
    yield check('a chain of 1,900 bounds', bounds + numbered(1900, 'class B@{T < $A{T}} is attr b:B<@{T}; end;', 1)
                + main_of('x:B1900{K};'))
    names = ['P%s%s' % (first, second) for first in 'ABCDEFGHIJ' for second in 'ABCDEFGHIJ']
    linked = ','.join('%s < $C{%s,%s}' % (name, names[place - 1], names[place - 2]) for place, name in enumerate(names))
    yield check('a hundred bounds that name one another', 'abstract class $C{S,T} is end; class K < $C{K,K} is end;'
                'class B{%s} is end;' % linked + main_of('x:B{%s};' % ','.join(['K'] * 100)))
    yield check('1,900 immutable classes, each of which holds the next one twice', numbered(
        1900, 'immutable class C<@ is attr a,b:C@; end;', 1) + 'immutable class C1900 is end;' + main_of('x:C0;'))


def conformance():
    """Signatures and what implements them."""
    def grid(count):
        """So many classes below one with as many signatures, each of which has them all as attributes."""
        return 'abstract class $A is %s end;' % numbered(count, 'f@:INT;') + 'class B is %s end;' % numbered(count, 'attr f@:INT;') \
            + numbered(count, 'class C@ < $A is include B; end;') + main_with('attr a:$A;' + numbered(count, 'attr c@:C@;'))
    yield check('310 signatures of 310 classes', grid(310))
    yield check('330 signatures of 330 classes', grid(330), refused(1, 'E56'))
    yield slow(check)('1,800 signatures of 1,800 classes', grid(1800), refused(1, 'E56'), NO_MEMORY)
    overloads = ''.join('f(a:K%d,b:K%d,c:K%d):INT is return 1 end;' % (*pair(number % 10_000), number // 10_000)
                        for number in range(40_000))
    yield check('40,000 overloads that don\'t conform', kinds() + 'abstract class $A is f(a:INT):INT; end; class C < $A is %s end;'
                % overloads + main_with('attr a:$A; attr c:C;'), refused(1, 'E20'))
    yield check('50,000 signatures of one class', 'abstract class $A is %s end;' % numbered(50_000, 'f@(x:INT):INT;') + main_of('a:$A;'))
    yield slow(check)('1,900 classes below one another, each with a signature', numbered(
        1900, 'abstract class $A<@ < $A@ is f@:INT; end;', 1) + 'abstract class $A1900 is end;' + main_of('x:$A0;'),
        accepted(), NO_MEMORY)
    of_one = diamond(30, lambda above: '{T}' if above is None else '{T} < $A%d{T}, $B%d{T}' % (above, above)).replace(
        ' is end', ' is f(x:T):INT; end')
    yield check('a diamond of 30 levels with a signature in each class', of_one + main_of('x:$A0{INT};'), accepted(), NO_MEMORY)


def constants():
    """Constants and shareds that depend on one another."""
    chain = numbered(100_000, 'const c<@:INT:=c@;', 1)
    yield check('a chain of 100,000 constants', main_with(chain + 'const c100000:INT:=1;'))
    yield check('a circle of 100,000 constants', main_with(chain + 'const c100000:INT:=c0;'), refused(1, 'E23'))
    yield check('50,000 constants, each of the one before it twice', main_with('const c0:INT:=0;' + numbered(
        50_000, 'const c@:INT:=c<@+c<@;', 1)))
    text = 'x' * 2_000_000
    yield slow(check)('50,000 constants that name one text', main_with('const c0:STR:="%s";' % text + numbered(
        50_000, 'const c@:STR:=c<@;', 1)), accepted(), NO_MEMORY)
    yield slow(build)('50,000 uses of a constant of two million bytes', main_with('const c:STR:="%s";' % text, 's:STR;' + 's:=c;' * 50_000),
                built(), NO_MEMORY)
    yield slow(check)('300,000 numbered constants', main_with('const c%s;' % numbered(300_000, ',c@')))
    yield slow(run)('60,000 shareds, each of the one before it', main_with('shared c0:INT:=1;' + numbered(
        60_000, 'shared c@:INT:=c<@;', 1), '#OUT + c60000;'), printed(b'1'))
    yield slow(run)('150,000 shareds without a value', main_with(numbered(150_000, 'shared s@:INT;'), '#OUT + s149999;'), printed(b'0'))


def choices():
    """Choices among many candidates, and what waits for a type."""
    overloads = ''.join('f(%s) is end;' % ','.join('a%d:%s' % (n, '$OB' if bits >> n & 1 else 'INT') for n in range(11))
                        for bits in range(2048))
    yield slow(check)('300 calls that 2,048 overloads fit', main_with(overloads, ('f(%s);' % ','.join('1' * 11)) * 300))
    overloads = ''.join('f(a:K%d,b:K%d):INT is return 1 end;' % pair(number) for number in range(8000))
    yield slow(check)('500 calls that leave 8,000 overloads open up to the last argument', kinds() + main_with(
        ''.join('f(a:STR,b:K%d,c:K%d) is end;' % pair(number) for number in range(8000)), 'x:K7; y:K9; ' + 'f(void,x,y);' * 500))
    yield check('a call with void of 8,000 overloads that fit', kinds() + main_with(overloads, 'x:INT := f(void,void);'),
                refused(1, 'E32'))
    overloads = ''.join('f(a:K%d,b:K%d):K%d is return a end;' % (*pair(number), number % KINDS) for number in range(2000))
    yield check('95 calls inside one another of 2,000 overloads', kinds() + main_with(
        overloads + 'f(a:K1):K1 is return a end;', 'x ::= %s;' % nested('f(', 'void', ')', 95)))
    overloads = ''.join('f(a:%s,b:INT) is end;' % nested('ARRAY{', 'K%d' % (number // 7), '}', number % 7 + 1) for number in range(600))
    yield check('an array of arrays for 600 candidates', kinds() + main_with(overloads, 'f(%s,1);' % nested('(|', 'void', '|)', 60)),
                refused(1, 'E31'), refused(1, 'E32'), refused(1, 'E41'))
    links = numbered(90, 'class C<@ is create(a:C@):SAME is return new end; create(a:INT):SAME is return new end; end;', 1)
    overloads = numbered(90, 'f(a:C@) is end;')
    yield check('objects of the context inside one another, for 90 candidates', links + 'class C90 is create(a:INT):SAME is '
                'return new end; end;' + main_with(overloads, 'f(%s);' % nested('#(', '1', ')', 60)),
                refused(1, 'E32'), refused(1, 'E31'), refused(1, 'E41'))
    yield check('199 variables in each of 490 routines', main_with(numbered(490, 'f@ is %s end;' % ''.join(
        'v%d:INT;' % n for n in range(199)))))
    yield check('40,000 sums before a name that is unknown', main_of('x ::= 1;' + 'x := x + 1;' * 40_000 + 'y := 1;'), refused(1, 'E30'))


def bodies():
    """Long and deep lists of statements."""
    yield slow(check)('four million bytes of one body', filled_main('x ::= 1; ', 'x:=x+1;', ''), refused(1, 'E55'))
    yield slow(check)('two million values of a case', filled_main('x ::= 1; case x when 1', ',1', ' then end;'), refused(1, 'E55'))
    yield slow(check)('two million elements of an array', filled_main('x:ARRAY{INT} := |1', ',1', '|;'), refused(1, 'E55'))
    yield run('the last of 30,000 values of a case', main_of('x ::= 29999; case x when %s then #OUT + "a"; end;' % ','.join(
        map(str, range(30_000)))), printed(b'a'))
    yield run('an array of 150,000 elements', main_of('x:ARRAY{INT} := |1%s|; #OUT + x.size;' % (',1' * 149_999)), printed(b'150000'))
    yield build('25,000 branches of one condition', main_of('x ::= 1; if x = 0 then %s end;' % ''.join(
        'elsif x = %d then x := 1;' % n for n in range(1, 25_000))))
    yield build('90,000 branches of a typecase', main_of('x:$OB := 1; typecase x %s end;' % ('when STR then ' * 90_000)),
                built(), refused(1, 'E53'))
    yield build('30,000 returns', main_of('x ::= 1; ' + 'if x = 2 then return; end;' * 30_000))
    yield build('40,000 loops in a row', main_of('loop break!; end;' * 40_000))
    yield build('40,000 ends of one loop', main_of('loop %s end;' % ('while!(false);' * 40_000)))
    inner = ''
    for _ in range(190):
        inner = 'loop x := x + 1; until!(x > 9); %s %s end;' % ('if x = 7 then x := x + 2; end;' * 20, inner)
    yield build('190 loops inside one another, with branches at each level', main_of('x ::= 1; ' + inner))
    yield build('190 protects inside one another', main_of('x ::= 1; ' + nested(
        'protect x := x / x; ', '', 'when STR then x := 2; end;', 190)))
    yield build('20,000 protects in a row', main_of('x ::= 1; ' + 'protect x := x / x; when FAULT then end;' * 20_000))
    yield slow(build)('150,000 routines', main_with(numbered(150_000, 'f@ is end;')))
    yield build('60,000 texts', main_of('x:STR; ' + numbered(60_000, 'x := "text @";')))


def iters():
    """Sites and suspensions."""
    yield build('10,000 iters of one loop', main_of('loop %s end;' % ('1.times!;' * 10_000)))
    yield slow(run)('10,000 iters of one loop that are live', main_of('loop %s end;' % ('9.times!;' * 10_000)), printed(b''))
    yield slow(run)('10,001 iters of one loop', main_of('loop\n%s\nend;' % ('9.times!;' * 10_001)), faulted(2, 'frames'))
    yield build('an iter of 10,000 sites and 10,000 suspensions', main_with('f! is loop %s %s end; end;' % (
        '9.times!;' * 10_000, 'yield;' * 10_000), 'loop f!; end;'), built(), NO_MEMORY)
    yield build('an iter of 190 variables and 40,000 suspensions', main_with('f! is %s %s %s end;' % (
        ''.join('v%d ::= %d;' % (n, n) for n in range(190)), 'yield;' * 40_000, ''.join('v%d := v%d + 1;' % (n, n) for n in range(190))),
        'loop f!; end;'), built(), NO_MEMORY)
    yield build('95 loops inside one another in an iter, each with an iter', main_with('f! is %s end;' % nested(
        'loop 9.times!; ', 'yield;', ' end;', 95), 'loop f!; end;'))
    yield build('95 loops inside one another, each with an iter and 100 ways out', main_of('x ::= 1; ' + nested(
        'loop 9.times!; %s ' % ('if x = 2 then return; end;' * 100), '', 'end;', 95)))
    yield build('95 loops inside one another, each with 100 iters and 100 ways out', main_of('x ::= 1; ' + nested(
        'loop %s %s ' % ('9.times!;' * 100, 'if x = 2 then return; end;' * 100), '', 'end;', 95)))
    yield build('40,000 binds', main_of('x:ROUT{INT}:INT; ' + 'x := bind(1.plus(_));' * 40_000))


def emission():
    """Code for calls that choose by the class of a value, and for values of many attributes."""
    def below(step):
        """1,850 classes, of which each so manieth is below `$A`, and calls of its signature."""
        return ''.join('class C%d%s is f:INT is return 1 end; end;' % (n, ' < $A' if n % step == 0 else '') for n in range(1850)) \
            + 'abstract class $A is f:INT; end;' + main_with(numbered(1850, 'attr c@:C@;'), 'a:$A; x:INT; ' + 'x := a.f;' * 40_000)
    yield build('40,000 dispatched calls on two classes far apart', below(1849), built(), NO_MEMORY)
    yield slow(build)('40,000 dispatched calls on every eighth class', below(8), built(), NO_MEMORY)
    yield build('40,000 dispatched calls on all classes', below(1), built(), NO_MEMORY)
    yield build('a change of one of 5,000 attributes', 'immutable class P is %s end; ' % numbered(5_000, 'attr a@:INT;')
                + main_of('p:P; p.a1 := 1;'), built(), NO_MEMORY)
    yield build('a change of one of 100,000 attributes', 'immutable class P is %s end; ' % numbered(100_000, 'attr a@:INT;')
                + main_of('p:P; p.a1 := 1;'), built(), NO_MEMORY)
    yield build('20,000 changes of 1,000 attributes', 'immutable class P is %s end; ' % numbered(1_000, 'attr a@:INT;') + main_of(
        'p:P; ' + numbered(1_000, 'p.a@ := 1;') * 20), built(), NO_MEMORY)
    yield build('20,000 values of 1,000 attributes are widened', 'immutable class P is %s end; ' % numbered(1_000, 'attr a@:INT;')
                + main_of('p:P; x:$OB; ' + 'x := p;' * 20_000), built(), NO_MEMORY)
    yield build('180 branches over 1,900 classes', numbered(1900, 'class C@ < $A is end;') + 'abstract class $A is end;' + main_with(
        numbered(1900, 'attr c@:C@;'), 'a:$A; typecase a %s else end;' % ('when $A then ' * 180)))


PHASES = {'tokens': tokens, 'grammar': grammar, 'classes': classes, 'includes': includes, 'subtypes': supertypes, 'instances': instances,
          'conformance': conformance, 'constants': constants, 'calls': choices, 'bodies': bodies, 'iters': iters, 'emission': emission}


def sources():
    """All of them, each with its phase."""
    for phase, some in PHASES.items():
        for one in some():
            yield phase, one
