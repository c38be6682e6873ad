"""Makes an input smaller that shows something, by leaving out parts of it as long as it shows the same (delta debugging)."""
import time

import binary
import mutants

SECONDS = 60        # of the trying


class Trying:
    """What asks whether a smaller input still shows it, for so long as there is time."""

    def __init__(self, shows, seconds=SECONDS):
        self.shows, self.until = shows, time.monotonic() + seconds

    def asks(self, input_):
        return time.monotonic() < self.until and self.shows(input_)


def fewer(pieces, joined, trying):
    """As few of the pieces as still show it, in runs that get shorter."""
    run = max(len(pieces) // 2, 1)
    while pieces:
        at = 0
        while at < len(pieces):
            left = pieces[:at] + pieces[at + run:]
            if trying.asks(joined(left)):
                pieces = left
            else:
                at += run
        if run == 1:
            return pieces
        run //= 2
    return pieces


def of_source(text, shows):
    """A source that shows the same: of fewer lines, then of fewer tokens, then of fewer bytes."""
    trying = Trying(shows)
    for parted in (mutants.lines_of, mutants.tokens_of, mutants.bytes_of):
        text = b''.join(fewer(parted(text), b''.join, trying))
    return text


# ---- modules

def number_at(module, at):
    """The number without a sign that is spelled at a place, and the place behind it."""
    number, shift = 0, 0
    while module[at] >= 128:
        number, shift, at = number | (module[at] & 127) << shift, shift + 7, at + 1
    return number | module[at] << shift, at + 1


def parts_of(module):
    """The sections of a module as pairs of an id and a content, or None where they don't fill it."""
    parts, at = [], 8
    try:
        while at < len(module):
            size, begin = number_at(module, at + 1)
            parts.append((module[at], module[begin:begin + size]))
            at = begin + size
    except IndexError:
        return None
    return parts if at == len(module) else None


def joined_parts(parts):
    """The module of these sections."""
    return binary.PREAMBLE + b''.join(binary.section(number, content) for number, content in parts)


def bodies_of(content):
    """The entries of a code section, or None where they don't fill it."""
    try:
        count, at = number_at(content, 0)
        bodies = []
        for _ in range(count):
            size, begin = number_at(content, at)
            bodies.append(content[begin:begin + size])
            at = begin + size
    except IndexError:
        return None
    return bodies if at == len(content) else None


def fewer_in_section(parts, place, trying):
    """The sections with fewer bytes in one of them; in that of the code, fewer bytes in each body."""
    number, content = parts[place]

    def with_content(changed):
        return parts[:place] + [(number, changed)] + parts[place + 1:]

    bodies = bodies_of(content) if number == 10 else None
    if bodies is None:
        return with_content(b''.join(fewer(mutants.bytes_of(content), lambda left: joined_parts(with_content(b''.join(left))), trying)))

    def with_body(of, changed):
        return with_content(binary.vector([binary.counted(one) for one in bodies[:of] + [changed] + bodies[of + 1:]]))

    for of, body in enumerate(bodies):
        bodies[of] = b''.join(fewer(mutants.bytes_of(body), lambda left, of=of: joined_parts(with_body(of, b''.join(left))), trying))
    return with_content(binary.vector([binary.counted(one) for one in bodies]))


def of_module(module, shows):
    """A module that shows the same: of fewer sections, then of fewer bytes in them, whose sizes are told anew; where the bytes
    have no sections, of fewer bytes."""
    trying = Trying(shows)
    parts = parts_of(module)
    if parts is None or not trying.asks(joined_parts(parts)):
        return b''.join(fewer(mutants.bytes_of(module), b''.join, trying))
    parts = fewer(parts, joined_parts, trying)
    for place in range(len(parts)):
        parts = fewer_in_section(parts, place, trying)
    return joined_parts(parts)
