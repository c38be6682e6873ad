#!/usr/bin/env python3
"""glossary.py: holds the names and the comments of what is public to the words of docs/GLOSSARY.md.

- Each type that a crate's src/lib.rt exports is named in docs/GLOSSARY.md or in the crate's README, and no two crates declare one name.
- What a row of the page names in a crate is there: a type, a function, a definition, or a file of it.
- No word of `WORDS` is in a name that is public, of a type, a function, a constant or a definition, or in a `///` line of one.

What is wrong is a line for each place, with the word that is meant."""
import re
import sys

import definitions
import report

# Words that aren't used, and what the books on compilers say for them. The words of a name are parted by `_` or by capitals.
WORDS = {
    'meaning': 'semantics', 'meanings': 'semantics', 'typed tree': 'typed AST', 'typed trees': 'typed ASTs', 'flat program': 'CFG',
    'flat programs': 'CFGs', 'flat body': 'body of the CFG', 'flat block': 'basic block', 'flat step': 'operation',
    'exit of a block': 'terminator', 'shape of a call': 'call type', 'shape of a body': 'structured region',
    'choice of blocks': 'dispatch', 'widen': 'box', 'widens': 'boxes', 'widened': 'boxed', 'widening': 'boxing', 'unwrap': 'unbox',
    'unwraps': 'unboxes', 'unwrapped': 'unboxed', 'hand over': 'pass', 'handed': 'passed', 'hands': 'passes', 'handing': 'passing',
    'bring back': 'copy out', 'brought': 'copied out, or included', 'kept over': 'saved over', 'taken up': 'resumed',
    'what is left of a body': 'continuation', 'what is left of the statements': 'continuation', 'ways out': 'exits',
    'made for an implementation alone': 'adapter', 'made for the implementations alone': 'adapters',
    'told': 'reported, or said', 'tell': 'report, or say', 'tells': 'reports, or says', 'teller': 'reporter', 'tellers': 'reporters',
    'feed': 'line start', 'feeds': 'line starts', 'trial': 'check, or verifier', 'words of a command': 'arguments',
    'the outside': 'the host', 'what is around': 'context', 'thought to be there': 'invariant',
    'stand': 'be', 'stands': 'is', 'stood': 'was', 'standing': 'being', 'behind': 'after', 'in front of': 'before',
}
# Phrases in which such a word has another sense.
ALLOWED = ['line feed', 'line feeds', 'stands for', 'stand for', 'standing for', 'tell apart', 'tells apart', 'told apart', 'behind one pointer']
EXPORTED = re.compile(r'^pub use (\w+)([^;]*);', re.M)
TYPE = re.compile(r'\b[A-Z]\w*[a-z]\w*')
ITEM = re.compile(r'^ *pub (?:unsafe |const )?(?:struct|enum|trait|type|fn|const|static) (\w+)')
DEFINED = re.compile(r'^(?:  )?(?:abbrev |unfoldable |data |record )*pub (?:abbrev |unfoldable |data |record )*([\w◌«»-]+)')
ROW = re.compile(r'`((?:sa|wa)_\w+|host_io|failure)`: ((?:`\w+`(?:, )?)+)')
PART = re.compile(r'[A-Z]?[a-z]+|[A-Z]+(?![a-z])|\d+')
FOUND = re.compile(r'\b(%s)\b' % '|'.join(sorted(WORDS, key=len, reverse=True)))
LEFT_OUT = re.compile(r'\b(%s)\b' % '|'.join(sorted(ALLOWED, key=len, reverse=True)))


def exported():
    """The types of each crate's root, by their names: the crates that declare and export one."""
    types, sources = {}, definitions.files('src', '.rt')
    crates = {crate for crate, _ in sources}
    for crate in sorted(crates):
        listed = [names for module, names in EXPORTED.findall(sources.get((crate, 'lib'), '')) if module not in crates]
        for name in set(TYPE.findall(re.sub(r'\w+::', '', ' '.join(listed)))):
            types.setdefault(name, []).append(crate)
    return types


def wrong_words(text):
    """The words of a text that are no longer said, each with what is said."""
    text = LEFT_OUT.sub('', text.lower())
    return ', '.join('for "%s" say "%s"' % (word, WORDS[word]) for word in dict.fromkeys(FOUND.findall(text)))


def wrong_lines(lines):
    """The lines of a source with such words: public names, and the `///` of public items, the variants of public types among them."""
    block, in_type = [], False
    for number, line in enumerate(lines, 1):
        word, item = line.strip(), ITEM.match(line)
        if word.startswith('///'):
            block.append((number, word))
        elif word and not word.startswith('#['):
            is_public = word.startswith('pub ') or in_type and line.startswith('    ') and not line.startswith('     ')
            yield from ((at, wrong, text) for at, text in block if is_public and (wrong := wrong_words(text)))
            if item and (wrong := wrong_words(' '.join(PART.findall(item[1])))):
                yield number, wrong, item[1]
            block = []
            in_type = bool(re.match(r'pub (enum|trait) ', line)) or in_type and not line.startswith('}')


def wrong_definitions(lines):
    """The definitions of a file of specs/ with such words in their names."""
    for number, line in enumerate(lines, 1):
        if (found := DEFINED.match(line)) and (wrong := wrong_words(' '.join(PART.findall(found[1])))):
            yield number, wrong, found[1]


def missing(page):
    """What rows of the page name in a crate that lacks it."""
    for crate, names in ROW.findall(page):
        own = {key: text for part, suffix in (('src', '.rt'), ('specs', '.antt')) for key, text in definitions.files(part, suffix).items()
               if key[0] == crate}
        for name in re.findall(r'`(\w+)`', names):
            declared = re.compile(r'\b(?:struct|enum|trait|type|fn|record|data) %s\b|^(?:[\w ]* )?%s :' % (name, name), re.M)
            if not any(declared.search(text) or path.endswith(name) for (_, path), text in own.items()):
                yield '`%s`: `%s`' % (crate, name)


def try_all(told):
    """Tries the types, then the words, file by file."""
    types, page = exported(), report.text_of('docs', 'GLOSSARY.md')
    told.part('the words of the glossary', 0)
    lost = sorted(set(missing(page)))
    told.count('rows of docs/GLOSSARY.md', 'no longer there: %s' % ', '.join(lost) if lost else None)
    for name, crates in sorted(types.items()):
        named = re.compile(r'`[^`\n]*\b%s\b[^`\n]*`' % name)
        texts = [page, *(report.text_of('crates', crate, 'README.md') for crate in crates)]
        told.count('%s: %s' % (crates[0], name), None if any(map(named.search, texts)) else 'no row of docs/GLOSSARY.md or its README')
        told.count('%s: one crate' % name, None if len(crates) == 1 else 'declared in %s' % ', '.join(crates))
    for part, suffix, wrong_of in (('src', '.rt', wrong_lines), ('specs', '.antt', wrong_definitions)):
        for (crate, path), text in definitions.files(part, suffix).items():
            file = 'crates/%s/%s/%s%s' % (crate, part, path, suffix)
            wrong = list(wrong_of(text.split('\n')))
            for number, words, found in wrong:
                told.count('%s:%d' % (file, number), '%s: %s' % (words, found))
            if not wrong:
                told.count(file, None)


def main():
    told = report.Report()
    try_all(told)
    return told.close()


if __name__ == '__main__':
    sys.exit(main())
