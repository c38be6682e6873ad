"""Reads the relations of the grammar out of specs/. A relation has a place for lexemes, one or a list, and a constructor for each
alternative: the conclusion has its arguments, and the premises say what its lexemes are.

A term is a word, or a tuple of what stands in brackets, with the bracket in front."""
import re

import report

FILES = ['sa_parser_expr/specs/Lexemes', 'sa_parser_expr/specs/Types', 'sa_parser_expr/specs/Expressions', 'sa_parser/specs/Names',
         'sa_parser/specs/Statements', 'sa_parser/specs/Signatures', 'sa_parser/specs/Conditions', 'sa_parser/specs/Features',
         'sa_parser/specs/Classes']
HEAD = re.compile(r'(?:(?:pub|private) )*(data|record|abbrev|unfoldable)(?: pub| private)* (\w+) (.*)')
NAME = re.compile(r'(?:\w+\.)*[A-Z]\w*')


class Unreadable(Exception):
    """What can't be read, and where."""


def terms(text):
    """The terms of a text."""
    open_ones = [[]]
    for word in re.findall(r'[(){}]|[^\s(){}]+', text):
        if word in '({':
            open_ones.append([word])
        elif word in ')}':
            inside = tuple(open_ones.pop())
            open_ones[-1].append(inside)
        else:
            open_ones[-1].append(word)
    return open_ones[0]


def shown(found):
    """Terms as text."""
    return ' '.join(term if isinstance(term, str) else term[0] + shown(term[1:]) + (')' if term[0] == '(' else '}') for term in found)


def words_of(found):
    """All words of terms, in their order."""
    return [word for term in found for word in ([term] if isinstance(term, str) else words_of(term))]


def split(found, at):
    """The terms between these words."""
    parts = [[]]
    for term in found:
        if term == at:
            parts.append([])
        else:
            parts[-1].append(term)
    return parts


def declared(groups):
    """The types of variables, by their names, of which each group of terms in brackets declares some."""
    return {name: shown(group[group.index(':') + 1:]) for group in groups for name in group[1:group.index(':')]}


def last_name(word):
    """A name without those of its modules."""
    return word.rpartition('.')[2]


def matched(own, given, types):
    """The variables of a conclusion's argument by what is given for it, or None where another one is given."""
    if given == '_' or own in types:
        return {own: given}
    own, given = (term[1:] if isinstance(term, tuple) else (term,) for term in (own, given))
    if not NAME.fullmatch(str(own[0])):
        raise Unreadable('`%s` beside `%s`' % (shown(own), shown(given)))
    return all_matched(own[1:], given[1:], types) if (last_name(own[0]), len(own)) == (given[0], len(given)) else None


def all_matched(own, given, types):
    """The same for several arguments."""
    found = [matched(*pair, types) for pair in zip(own, given)]
    return None if None in found else {name: term for one in found for name, term in one.items()}


def filled(term, known, types):
    """An argument that a premise gives. What isn't known of it is `_`."""
    if isinstance(term, tuple) and term[0] == '(':
        return '(', *(filled(part, known, types) for part in term[1:])
    if term not in types and not NAME.fullmatch(str(term)):
        raise Unreadable('the argument `%s`' % shown([term]))
    return known.get(term, '_') if term in types else last_name(term)


class Constructor:
    """An alternative of a relation: the arguments in its conclusion, its premises, and the types of its variables."""

    def __init__(self, arguments, premises, types):
        self.arguments, self.premises, self.types = arguments, premises, types


class Relation:
    """A relation: its parameters, the types of its arguments, the place of the lexemes among these, if it is one of lexemes, and its
    constructors."""

    def __init__(self, kind, name, head):
        before, *behind = split(terms(head.removesuffix(' where')), ':')
        self.kind, self.name, self.params, self.constructors = kind, name, declared(before), {}
        *types, self.gives = map(shown, split(behind[0] if behind else [], '→'))
        self.types = [*self.params.values(), *types]
        places = [place for place, of in enumerate(self.types) if of in ('Lexeme', 'List Lexeme')]
        self.place = places[0] if len(places) == 1 and self.gives == 'Type 0' else None

    def add(self, line):
        """Takes a constructor, a field of a record, or an equation that names another relation."""
        left, _, right = line.removeprefix('pub ').partition(' : ' if self.kind in ('data', 'record') else ' = ')
        if not right:
            raise Unreadable('`%s` in %s' % (line, self.name))
        if self.kind == 'data':
            pieces = split(terms(right), '→')
            types = declared(pieces.pop(0) if pieces[0][0][0] == '{' else [])
            self.put(left, pieces.pop()[1:], pieces, {**self.params, **types})
        elif self.kind == 'record':
            one = self.constructors.get('record')
            self.put('record', [*self.params], [*(one.premises if one else []), terms(right)], self.params)
        else:
            arguments = terms(left)[1:]
            self.put(left, arguments, [terms(right)], dict(zip(arguments, self.types)))

    def put(self, name, arguments, premises, types):
        """Puts a constructor."""
        if len(arguments) != len(self.types):
            raise Unreadable('the arguments of `%s` in %s' % (name, self.name))
        self.constructors[name] = Constructor(arguments, premises, types)

    def hands_on(self, place):
        """Whether what is given at this place is only put into trees."""
        return all(one.arguments[place] in one.types and one.arguments[place] not in words_of(one.premises)
                   for one in self.constructors.values())


def lines_of(path):
    """The lines of a file with their depths. One that goes on does so four blanks deeper."""
    found = []
    for line in re.sub(r'(^|\s)--.*', '', report.text_of('crates', path + '.antt'), flags=re.M).split('\n'):
        depth = len(line) - len(line.lstrip())
        if found and line and depth >= found[-1][0] + 4:
            found[-1] = found[-1][0], found[-1][1] + ' ' + line.strip()
        elif line.strip():
            found.append((depth, line.strip()))
    return found


def relations(but):
    """The relations of the grammar by their names, but these."""
    found = {}
    for path in FILES:
        last, at = None, 0
        for depth, line in lines_of(path):
            if last and depth == at + 2 and last.kind in ('data', 'record') or last and line.startswith(last.name + ' '):
                last.add(line)
            elif last and depth > at:
                raise Unreadable('`%s` in %s' % (line, last.name))
            else:
                one, at = HEAD.fullmatch(line) and Relation(*HEAD.fullmatch(line).groups()), depth
                last = one if one and one.place is not None and one.name not in but else None
                if last and found.setdefault(last.name, last) is not last:
                    raise Unreadable('two relations %s' % last.name)
    return found
