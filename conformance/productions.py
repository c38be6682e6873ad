#!/usr/bin/env python3
"""productions.py: compares the grammar of docs/LANGUAGE.md with that of the definitions, production by production.

The page has a rule for each production. The definitions have relations between lexemes and trees, one for each production and for
parts of them, with a constructor for each alternative: its conclusion has the lexemes, and its premises say what each of them is. A
rule and its relation, with the parts put in place, are to spell the same sequences of tokens and productions; else a shortest one is
told that one of them alone spells. What a production holds of itself at an end of it, to the left or to the right, is a repetition.

Told too are a production without a relation, one that no production above it on the page names, a constructor that can't be read,
and one that no production uses."""
import re
import sys

import report
from relations import Unreadable, all_matched, filled, relations, shown, terms, words_of
from sequences import difference, either, many, may_be_empty, option, repeated, sequence, symbols

PAGE = ('docs', 'LANGUAGE.md')
# The relation of each production, with an argument that tells it from others. One in brackets is what `[mode]` is on the page. What
# the page calls a feature is a member there, since `attr a, b:T` is one of these and two features.
RELATIONS = {
    'file': 'IsFile', 'class': 'IsWholeClass', 'params': 'IsParams', 'param': 'IsParam', 'below': 'IsTypesAfter Less',
    'above': 'IsTypesAfter Greater', 'types': 'IsTypes', 'type': 'IsType', 'mode': '[IsMode]', 'sig': 'IsSig', 'formal': 'IsFormal',
    'feature': 'IsMember', 'change': 'IsChange', 'stmts': 'IsStmts', 'stmt': 'IsStmt', 'expr': 'IsExpr',
    'comp': 'IsOperation Comparing', 'sum': 'IsOperation Adding', 'prod': 'IsOperation Multiplying', 'unary': 'IsUnary',
    'power': 'IsPower', 'post': 'IsPost', 'args': '[IsArgs]', 'arg': 'IsArg', 'first': 'IsFirst',
}
PRODUCTIONS = {relation.strip('[]'): name for name, relation in RELATIONS.items()}
# Relations that only clauses of functions cite, which read something else than a production or a part of one.
OF_CLAUSES = {'IsName', 'IsForm', 'ContinuesTexts', 'GivesMode'}
# What the page says in prose: where a form stands, in arguments of these types, and a premise in each of these constructors.
AROUND = {'ConditionScope', 'Enclosure', 'CallableKind', 'Enclosing', 'FileKind'}
IN_PROSE = {
    ('IsMode', 'once_word'): 'callable ≡ Iter',                     # `once` is a mode of the arguments of iters
    ('IsClauses', 'given'): 'file_kind ≡ Program',                  # the prelude has no clauses
    ('IsCalled', 'stub'): 'class.kind ≡ Partial',                   # a stub stands in partial classes alone
    ('IsCalled', 'builtin'): 'class.file_kind ≡ Prelude',           # and a built-in feature in the prelude alone
    ('IsMember', 'invariant'): 'class.file_kind ≡ Program',         # the prelude has no invariants
    ('IsWholeClass', 'concrete_class'): 'length (flat_map invariants_of members) ≤ 1',      # a class has one at most
}
# The rule in prose of what the prelude alone has: one more alternative of a feature.
PRELUDE = re.compile(r'The prelude alone, [^`]* holds `([^`]*)` too')
KINDS = {'ClassName': 'CNAME', 'AbstractName': 'ANAME', 'Lower': 'LNAME', 'IterName': 'INAME', 'Int': 'number', 'Char': 'character',
         'Text': 'text'}
FENCE = re.compile(r'^```.*\n', re.M)
IN_RULE = re.compile(r'"[^"]*"|\w+|[][(){}|]')
SPELLING = re.compile(r'^(word|sign)_text \w+\.(\w+) = codes "(.*)"$', re.M)
KIND = re.compile(r'(\w+)\.kind ≡ (.*)')
BYTES = re.compile(r'(\w+)\.bytes ≡ codes ("[A-Z]+")')


# ---- the page

class Rule:
    """The text of a rule while it is read."""
    MADE = {'(': (')', either), '[': (']', option), '{': ('}', many)}

    def __init__(self, text, names):
        self.words, self.names = IN_RULE.findall(text), names
        if IN_RULE.sub('', text).strip():
            raise Unreadable('`%s`' % IN_RULE.sub('', text).strip())

    def whole(self):
        """What all of it spells."""
        form = self.alternatives()
        if self.words:
            raise Unreadable('`%s` at the end of a rule' % ' '.join(self.words))
        return form

    def alternatives(self):
        found = [self.parts()]
        while self.words[:1] == ['|']:
            self.words.pop(0)
            found.append(self.parts())
        return either(*found)

    def parts(self):
        found = []
        while self.words and self.words[0] not in '|)]}':
            found.append(self.part(self.words.pop(0)))
        return sequence(*found)

    def part(self, word):
        if word in self.MADE:
            end, made = self.MADE[word]
            form = made(self.alternatives())
            if self.words[:1] != [end]:
                raise Unreadable('a `%s` without its `%s`' % (word, end))
            self.words.pop(0)
            return form
        if word[0] != '"' and word not in {'F', *self.names, *KINDS.values()}:
            raise Unreadable('`%s`, which is neither a token nor a production' % word)
        return either('LNAME', 'INAME') if word == 'F' else word


def rules():
    """What each production of the page spells, in the order of the page."""
    section = report.text_of(*PAGE).partition('\n## Grammar\n')[2].partition('\n## ')[0]
    pieces = [re.split(r'^(\w+) += ', block, flags=re.M) for block in FENCE.split(section)[1::2]]
    texts = [pair for piece in pieces for pair in zip(piece[1::2], piece[2::2])]
    names, prelude = [name for name, _ in texts], PRELUDE.findall(' '.join(section.split()))
    if len(set(names)) < len(names) or any(piece[0].strip() for piece in pieces):
        raise Unreadable('two rules of a name, or lines in front of a rule')
    return {name: Rule(' | '.join([text, *prelude]) if name == 'feature' else text, names).whole() for name, text in texts}


def empty_ones(found):
    """Which of these productions may be empty."""
    empty = set()
    while more := {name for name, form in found.items() if may_be_empty(form, empty)} - empty:
        empty |= more
    return empty


# ---- the definitions

def spellings():
    """How words and signs are spelled, as the lexer has it."""
    texts = [report.text_of('crates/sa_lexer/specs', name) for name in ('Words.antt', 'Signs.antt')]
    return {(kind.capitalize(), name): '"%s"' % text for kind, name, text in SPELLING.findall('\n'.join(texts))}


def choosing(relation, arguments):
    """Those of a relation's arguments that aren't lexemes, and that the page doesn't say in prose."""
    return [term for place, term in enumerate(arguments) if place != relation.place and relation.types[place] not in AROUND]


class Definitions:
    """What the relations spell, where these productions may be empty. It keeps which constructors were used, and what it couldn't
    read."""

    def __init__(self, empty):
        self.relations, self.spellings, self.empty = relations(OF_CLAUSES), spellings(), empty
        if unknown := AROUND - {of for relation in self.relations.values() for of in relation.types}:
            raise Unreadable('`%s`, which no relation has an argument of' % min(unknown))
        self.used, self.unread = set(), []

    def production(self, name):
        """What the relation of a production spells."""
        relation, *given = RELATIONS[name].strip('[]').split()
        if relation not in self.relations:
            raise Unreadable('%s, which is no relation' % relation)
        unknown = choosing(self.relations[relation], ['_' for _ in self.relations[relation].types])
        self.unread = []
        form = self.alternatives(self.relations[relation], given + unknown[len(given):], ())
        if self.unread:
            raise Unreadable('; '.join(dict.fromkeys(self.unread)))
        return form

    def alternatives(self, relation, given, around):
        """What a relation spells for these arguments, as a part of those around."""
        found = []
        for name, one in relation.constructors.items():
            try:
                known = all_matched(choosing(relation, one.arguments), given, one.types)
                if known is not None:
                    self.used.add((relation.name, name))
                    alternative = Alternative(self, one, known, around)
                    alternative.take_all(IN_PROSE.get((relation.name, name)))
                    found.append(alternative.spelled(one.arguments[relation.place]))
            except Unreadable as error:
                self.unread.append('%s, in `%s` of %s' % (error, name, relation.name))
        return either(*found)

    def token(self, kind):
        """A token of this kind."""
        found = KINDS.get(kind[0]) or self.spellings.get(tuple(kind))
        if found is None:
            raise Unreadable('the token `%s`' % shown(kind))
        return found

    def part(self, relation, given, around):
        """What a relation spells for these arguments: the name of a production, or what stands in the place of a part."""
        label = re.sub('( _)+$', '', shown([relation.name, *given]))
        if label in PRODUCTIONS:
            name = PRODUCTIONS[label]
            return option(name) if RELATIONS[name][0] == '[' else name
        if label in around:
            return label
        form = with_repetition(self.alternatives(relation, given, (*around, label)), label)
        if label in symbols(form):
            raise Unreadable('%s, which stands in the middle of itself' % label)
        return form


class Alternative:
    """A constructor while its premises are read: what they tell of its lexemes, and which unknown variables they speak of."""

    def __init__(self, definitions, one, known, around):
        self.definitions, self.one, self.known, self.around = definitions, one, known, around
        self.told, self.linked = {}, []

    def take_all(self, in_prose):
        """Takes all premises but the one that the page has in prose, if there is one."""
        premises = [premise for premise in self.one.premises if shown(premise) != in_prose]
        if in_prose and len(premises) == len(self.one.premises):
            raise Unreadable('no premise `%s`' % in_prose)
        for premise in premises:
            self.take(premise)
        if double := {name for name in self.linked if self.linked.count(name) > 1}:
            raise Unreadable('the premises that `%s` links' % min(double))

    def take(self, premise):
        """Takes a premise: a relation of lexemes, the kind of one, or behind that the bytes of a class's name."""
        text, relation = shown(premise), self.definitions.relations.get(premise[0])
        if found := BYTES.fullmatch(text):
            if self.told.pop((found[1],), None) != 'CNAME':
                raise Unreadable('`%s` of what is no name of a class' % text)
            run, form = (found[1],), found[2]
        elif found := KIND.fullmatch(text):
            run, form = (found[1],), self.definitions.token([filled(term, self.known, self.one.types) for term in terms(found[2])])
        elif relation and len(premise) == len(relation.types) + 1:
            run, form = self.related(relation, premise[1:])
        else:
            raise Unreadable('the premise `%s`' % text)
        if run in self.told:
            raise Unreadable('two premises of `%s`' % ' '.join(run))
        self.told[run] = form

    def related(self, relation, arguments):
        """The lexemes that are handed to a relation, and what they spell."""
        given = [filled(term, self.known, self.one.types) for term in choosing(relation, arguments)]
        form = self.definitions.part(relation, given, self.around)
        taken = choosing(relation, [() if relation.hands_on(place) else term for place, term in enumerate(arguments)])
        self.linked += {word for word in words_of(taken) if word in self.one.types and self.known.get(word, '_') == '_'}
        run = lexemes_in(arguments[relation.place])
        kinds = [self.one.types.get(word) for word in run]
        if kinds != [relation.types[relation.place]] and (
                kinds != ['Lexeme', 'List Lexeme'] or may_be_empty(form, self.definitions.empty.union(self.around))):
            raise Unreadable('the lexemes `%s`' % shown([arguments[relation.place]]))
        return run, form

    def spelled(self, lexemes):
        """What the lexemes of the conclusion spell."""
        left, found = lexemes_in(lexemes), []
        while left:
            run = next((run for run in self.told if run == left[:len(run)]), None)
            if run is None:
                raise Unreadable('`%s`, of which no premise says what it is' % left[0])
            found.append(self.told.pop(run))
            left = left[len(run):]
        if self.told:
            raise Unreadable('`%s`, which the conclusion lacks' % ' '.join(next(iter(self.told))))
        return sequence(*found)


def lexemes_in(term):
    """The variables in a list of lexemes, in its order."""
    return tuple(word for word in words_of([term]) if word not in ('(', '∷', '++', '[]'))


def with_repetition(form, name):
    """The same, where what a production or part holds of itself at an end is a repetition."""
    found = repeated(form, name)
    if found is None:
        raise Unreadable('%s, which stands at both of its ends' % name)
    return found


def differs(name, rule, definitions):
    """How a production's rule and its relation differ, or None."""
    if name not in RELATIONS:
        return 'it has no relation'
    try:
        rule, own = (with_repetition(form, name) for form in (rule, definitions.production(name)))
    except Unreadable as error:
        return "can't be read: %s" % error
    if RELATIONS[name][0] == '[':
        if may_be_empty(rule):
            return 'the page alone spells nothing'
        rule = option(rule)
    found = difference(rule, own)
    return found and '%s alone spells %s' % (
        'the page' if found[1] else RELATIONS[name].strip('[]'), '`%s`' % ' '.join(found[0]) if found[0] else 'nothing')


def try_all(told):
    """Compares each production of the page with its relation, and asks whether each constructor is used."""
    told.part('productions of the grammar', 0)
    try:
        page = rules()
        definitions = Definitions(empty_ones(page))
    except Unreadable as error:
        return told.count('the grammar', "can't be read: %s" % error)
    above = {*list(page)[:1]}
    for name, rule in page.items():
        told.count(name, differs(name, rule, definitions) or (None if name in above else 'no production above it on the page names it'))
        above |= symbols(rule)
    for name in sorted(RELATIONS.keys() - page.keys()):
        told.count(name, 'the page has no such production')
    for relation in definitions.relations.values():
        unused = [name for name in relation.constructors if (relation.name, name) not in definitions.used]
        told.count(relation.name, 'no production uses `%s`' % '`, `'.join(unused) if unused or not relation.constructors else None)


def main():
    told = report.Report()
    try_all(told)
    return told.close()


if __name__ == '__main__':
    sys.exit(main())
