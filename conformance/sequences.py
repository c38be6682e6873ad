"""Forms, which spell sequences of symbols: how they are made, and a shortest sequence that tells two apart. A symbol is a text, and
what is made of others is a word and its parts."""
import collections
import functools

NOTHING, NEVER = ('sequence', ()), ('either', frozenset())      # what spells the empty sequence alone, and what spells none


def sequence(*parts):
    """These, one behind the other."""
    flat = [piece for part in parts for piece in (part[1] if part[0] == 'sequence' else (part,))]
    return NEVER if NEVER in flat else flat[0] if len(flat) == 1 else ('sequence', tuple(flat))


def either(*parts):
    """Any of these."""
    flat = frozenset(piece for part in parts for piece in (part[1] if part[0] == 'either' else (part,)))
    return next(iter(flat)) if len(flat) == 1 else ('either', flat)


def many(part):
    """This as often as one likes."""
    return NOTHING if part in (NOTHING, NEVER) else ('many', (part,))


def option(part):
    """This, or nothing."""
    return either(part, NOTHING)


def may_be_empty(form, empty=frozenset()):
    """Whether it spells the empty sequence, where these symbols may be empty."""
    if isinstance(form, str):
        return form in empty
    kind, parts = form
    return kind == 'many' or (any if kind == 'either' else all)(may_be_empty(part, empty) for part in parts)


def symbols(form):
    """The symbols in it."""
    return {form} if isinstance(form, str) else set().union(*map(symbols, form[1]))


@functools.cache
def behind(form, symbol):
    """What may follow where it begins with the symbol."""
    if isinstance(form, str):
        return NOTHING if form == symbol else NEVER
    kind, parts = form
    if kind == 'either':
        return either(*(behind(part, symbol) for part in parts))
    if kind == 'many':
        return sequence(behind(parts[0], symbol), form)
    if not parts:
        return NEVER
    rest = sequence(*parts[1:])
    return either(sequence(behind(parts[0], symbol), rest), behind(rest, symbol) if may_be_empty(parts[0]) else NEVER)


def turned(form):
    """The same from right to left."""
    if isinstance(form, str):
        return form
    kind, parts = form
    return {'sequence': sequence, 'either': either, 'many': many}[kind](*map(turned, list(parts)[::-1]))


def without(form, symbol):
    """What of it doesn't begin with the symbol."""
    others = [sequence(other, behind(form, other)) for other in symbols(form) - {symbol}]
    return either(*others, NOTHING if may_be_empty(form) else NEVER)


def repeated(form, name):
    """What a form spells that is named so itself: at an end of it, it goes on as often as one likes. None where that is at both
    ends."""
    left, right = behind(form, name), behind(turned(form), name)
    if left == NEVER and right == NEVER:
        return form
    if right == NEVER:
        return sequence(without(form, name), many(left))
    return turned(sequence(without(turned(form), name), many(right))) if left == NEVER else None


def difference(one, other):
    """A shortest sequence that only one of two forms spells, and whether the first does; None where they spell the same."""
    seen, left = {(one, other)}, collections.deque([((), one, other)])
    while left:
        front, one, other = left.popleft()
        if may_be_empty(one) != may_be_empty(other):
            return front, may_be_empty(one)
        for symbol in sorted(symbols(one) | symbols(other)):
            pair = behind(one, symbol), behind(other, symbol)
            if pair not in seen:
                seen.add(pair)
                left.append(((*front, symbol), *pair))
    return None
