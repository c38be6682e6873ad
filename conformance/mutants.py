"""Makes changed sources and changed modules: texts and bytes that differ in a few places from those that they are made of."""
import functools

import source_reader
from source_reader import GAP, Refused

SIGNS = b' \n\t()[]{},;:.=/<>+-*%^~#|_$!"\'\\@\xff0189abzAZ'
OTHERS = b'''; ; , . : := ::= :: ( ) [ ] { } | _ -> = < > + - * / % ^ ~ # and or if then else elsif end loop case when typecase protect
is class abstract immutable partial include private readonly attr shared const stub in out inout once return yield quit raise assert
void new self exception true false bind SAME ROUT ITER INT STR BOOL CHAR $OB $STR ARRAY MAIN FAULT AREF FLIST main create str
while!(true) until!(false) break! 0 1 2147483647 2147483648 'a' "" x f g #OUT'''.split()
OF_CONTRACTS = b'pre post invariant initial result initial( pre(true) post(result) invariant:BOOL'.split()


# ---- sources

def tokens_of(text):
    """The source as tokens, each with the blanks before it. A byte that begins no token is one of its own."""
    return list(tokens_in(text))


@functools.lru_cache(maxsize=4_000)
def tokens_in(text):
    """The same, kept for a source that is asked for again."""
    pieces, at, begun = [], 0, 0
    while True:
        at = GAP.match(text, begun).end()
        if at == len(text):
            return tuple(pieces + ([text[begun:]] if begun < at else []))
        try:
            end = source_reader.token_at(text, at)[0].end
        except Refused:
            end = at + 1
        pieces.append(text[begun:end])
        begun = end


def lines_of(text):
    """The source as lines."""
    return text.splitlines(keepends=True)


def bytes_of(text):
    """The source as bytes."""
    return [text[at:at + 1] for at in range(len(text))]


def changed_pieces(rng, pieces, others):
    """The pieces with one change: some are left out, doubled, exchanged or moved, or one of others is put in."""
    at, way = rng.randrange(len(pieces)), rng.randrange(6)
    end = min(at + rng.choice((1, 1, 1, 2, 5)), len(pieces))
    if way == 0:
        return pieces[:at] + pieces[end:]
    if way == 1:
        return pieces[:end] + pieces[at:]
    if way == 2:
        return pieces[:at] + [rng.choice(others)] + pieces[at:]
    if way == 3:
        return pieces[:at] + [rng.choice(others)] + pieces[end:]
    other = rng.randrange(len(pieces))
    if way == 4:
        changed = list(pieces)
        changed[at], changed[other] = changed[other], changed[at]
        return changed
    return pieces[:other] + pieces[at:end] + pieces[other:]


def changed_source(rng, text, donor, contracts):
    """The source with one to four changes of tokens, lines or bytes. The donor's tokens and lines may be put in, and words of
    contracts where they are taken."""
    words = OTHERS + OF_CONTRACTS if contracts else OTHERS
    for _ in range(rng.choice((1, 1, 1, 2, 2, 3, 4))):
        way = rng.random()
        if way < 0.7:
            pieces, others = tokens_of(text), [b' ' + other for other in words]
            others = tokens_of(donor) if rng.random() < 0.4 else others
        elif way < 0.9:
            pieces, others = lines_of(text), lines_of(donor)
        else:
            pieces, others = bytes_of(text), [bytes([byte]) for byte in SIGNS]
        text = b''.join(changed_pieces(rng, pieces or [b' '], others or [b';']))
    return text


# ---- modules

def changed_module(rng, module, donor):
    """The module with one to three of its parts changed: single bytes, and runs of bytes, the donor's too."""
    changed = bytearray(module)
    for _ in range(rng.choice((1, 1, 1, 2, 3))):
        at, way = rng.randrange(8, max(len(changed), 9)), rng.random()
        run = rng.choice((1, 2, 3, 8, 30))
        if way < 0.6:
            before = changed[at] if at < len(changed) else 0
            changed[at:at + 1] = [rng.choice([rng.randrange(256), before ^ 1 << rng.randrange(8), rng.randrange(16)])]
        elif way < 0.75:
            changed[at:at] = [rng.choice([0, 0x0b, 0x1a, 0x40, 0x7e, 0x7f, 0x80, rng.randrange(256)])]
        elif way < 0.88:
            del changed[at:at + run]
        elif way < 0.94:
            changed[at:at] = changed[at:at + run]
        else:
            begin = rng.randrange(max(len(donor), 1))
            changed[at:at] = donor[begin:begin + run]
    return bytes(changed)
