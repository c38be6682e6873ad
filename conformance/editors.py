#!/usr/bin/env python3
"""editors.py: tries what stands in editors/, and the editor of the page of hosts/web.

- The words of the syntax file of Vim, of the TextMate grammar and of the page are exactly those of the lexer, and the words that the
  lexer refuses are marked as such; the words of the indent file are among them.
- All three give each byte of the samples here the kind that stands below it, and agree on each byte of the examples.
- The examples, with the blanks at the front of their lines taken away, are indented by Vim as they were.

Vim is run where it is there, and the page's script where node is. The grammar is read here as an editor reads it, by Python's
regular expressions."""
import collections
import json
import os
import re
import shutil
import subprocess
import sys

import examples
import report

VIM = os.path.join(report.TOP, 'editors', 'vim')
PAGE = os.path.join(report.TOP, 'hosts', 'web', 'sather.js')
# The kinds: the letter that stands for one in the samples, its group in Vim, and its scope in the grammar without `.sather`.
KINDS = [
    ('c', 'satherConditional', 'keyword.control.conditional'),
    ('l', 'satherRepeat', 'keyword.control.loop'),
    ('l', 'satherLeave', 'keyword.control.loop'),
    ('s', 'satherStatement', 'keyword.control'),
    ('x', 'satherException', 'keyword.control.exception'),
    ('d', 'satherStructure', 'storage.type'),
    ('m', 'satherModifier', 'storage.modifier'),
    ('o', 'satherOperator', 'keyword.operator.word'),
    ('v', 'satherConstant', 'constant.language'),
    ('v', 'satherSelf', 'variable.language'),
    ('T', 'satherTypeWord', 'support.type'),
    ('p', 'satherContract', 'keyword.other.contract'),
    ('!', 'satherRefused', 'invalid.illegal.word'),
    ('C', 'satherClass', 'entity.name.type.class'),
    ('A', 'satherAbstract', 'entity.name.type.abstract'),
    ('i', 'satherIter', 'entity.name.function.iter'),
    ('0', 'satherNumber', 'constant.numeric'),
    ('+', 'satherSign', 'keyword.operator'),
    ('k', 'satherCharacter', 'string.quoted.single'),
    ('"', 'satherString', 'string.quoted.double'),
    ('e', 'satherEscape', 'constant.character.escape'),
    ('?', 'satherBadEscape', 'invalid.illegal.escape'),
    ('-', 'satherComment', 'comment.line.double-dash'),
    (' ', '', ''), (' ', 'satherName', ''),
]
OF_GROUP = {group: letter for letter, group, _ in KINDS}
OF_SCOPE = {scope: letter for letter, _, scope in KINDS}
# The page has the kinds of Vim, in small letters.
OF_PAGE = {group.removeprefix('sather').lower(): letter for letter, group, _ in KINDS}
# Lines of source, each with the kinds of its bytes below it.
SAMPLES = r'''
abstract class $SEQ{T} < $OB, $A1 is elt!:T; end;
mmmmmmmm ddddd AAAA C  + AAA  AAA ss iiii C  sss
loop i ::= 1.upto!(0x1f_0); while!(i < n_2); loop!; far!; end -- end "it"
llll   +++ 0 iiiii 000000   llllll   +       iiiii  iiii  sss -----------
if ~void(a) and b_if /= "a\n\x-- if" then c := '\'' end; 'x'; "open
cc +vvvv    ooo      ++ ""ee??"""""" cccc   ++ keek sss  kkk  """""
private attr if2, IF:ITER{once SAME}:INT; shared a, iF:ARRAY{INT} := |1, 2|;
mmmmmmm dddd      CC TTTT mmmm TTTT  CCC  dddddd       CCCCC CCC  ++ +0  0+
par pre result lock $SAME SAME -> a_->b; 12_0; 0b10 0o17; exception; self.x; "\0017"
!!! ppp pppppp !!!! AAAAA TTTT ++   ++   0000  0000 0000  vvvvvvvvv  vvvv    "eeee""
'''.strip('\n').split('\n')

# Writes the groups of each byte of a file, a line for each of its lines, and the file as it is indented anew.
IN_VIM = '''
function Groups(line)
  return join(map(range(1, col([a:line, '$']) - 1), {_, at -> synIDattr(synID(a:line, at, 1), 'name')}), ',')
endfunction

filetype plugin indent on
syntax on
for file in argv()
  execute 'edit' file
  call writefile(map(range(1, line('$')), {_, line -> Groups(line)}), file . '.groups')
  let first = search('^ ')
  let &l:shiftwidth = first ? indent(first) : 3
  silent %left
  silent normal! gg=G
  call writefile(getline(1, '$'), file . '.indented')
  edit!
endfor
quitall!
'''

# Writes the words of the page by their kinds, and for each line of the input its pieces, each as its kind and its text.
IN_NODE = '''
const {WORDS, piecesOfLine} = require(process.argv[1]);
const lines = JSON.parse(require('fs').readFileSync(0, 'utf8'));
console.log(JSON.stringify([WORDS, lines.map(piecesOfLine)]));
'''


def words_of_lexer():
    """The words of the lexer: those that are taken, and those that are refused."""
    text = report.text_of('crates', 'sa_lexer', 'src', 'word.rt')
    spelled = dict(re.findall(r'Word::(\w+) => "(\w+)"', text))
    refused = re.findall(r'Word::(\w+)', re.search(r'fn is_refused.*?matches!\((.*?)\)', text, re.S).group(1))
    return [spelled[word] for word in spelled if word not in refused], [spelled[word] for word in refused]


def words_of_vim():
    """The lists of words of the syntax file, each with its kind."""
    found = re.findall(r'^syntax keyword (\w+) (.*)$', report.text_of('editors', 'vim', 'syntax', 'sather.vim'), re.M)
    return [(OF_GROUP[group], words.split()) for group, words in found]


class Grammar:
    """The TextMate grammar."""

    def __init__(self):
        grammar = json.loads(report.text_of('editors', 'textmate', 'sather.tmLanguage.json'))
        self.patterns, self.escapes = grammar['patterns'], grammar['repository']['escape']['patterns']

    def words(self):
        """The lists of words of the grammar, each with its kind."""
        found = ((rule, re.fullmatch(r'\\b\(\?:([\w|]+)\)\\b', rule.get('match', ''))) for rule in self.patterns)
        return [(OF_SCOPE[scope_of(rule)], words.group(1).split('|')) for rule, words in found if words]

    def kinds(self, line):
        """The kinds of the bytes of a line."""
        return ''.join(self.pieces(self.patterns, line, 0, ' ', None))

    def pieces(self, rules, line, at, around, end):
        """The kinds from a place up to an end. Of the rules that match first the one that is written first is taken."""
        while at < len(line):
            found = [(match.start(), place, match) for place, rule in enumerate(rules)
                     if (match := re.compile(rule.get('match') or rule['begin']).search(line, at))]
            closed = re.compile(end).search(line, at) if end else None
            start, place, match = min(found, default=(len(line), 0, None))
            if closed and closed.start() <= start:
                yield around * (closed.end() - at)
                return
            yield around * (start - at)
            if match:
                kind = OF_SCOPE[scope_of(rules[place])]
                inside = [kind * len(match.group())]
                if 'end' in rules[place]:
                    inside += self.pieces(self.escapes, line, match.end(), kind, rules[place]['end'])
                yield from inside
                start += sum(map(len, inside))
            at = start


def scope_of(rule):
    """The scope of a rule, or nothing where it has none."""
    return rule.get('name', '').removesuffix('.sather')


def words_differ(lists):
    """Where the words of an editor are others than those of the lexer, or None."""
    for what, wanted, is_refused in zip(('taken', 'refused'), words_of_lexer(), (False, True)):
        found = collections.Counter(word for kind, words in lists if (kind == '!') == is_refused for word in words)
        lacking, more = collections.Counter(wanted) - found, found - collections.Counter(wanted)
        if lacking or more:
            return 'of the words that are %s it lacks %s, and has %s besides' % (what, sorted(lacking), sorted(more))
    return None


def indent_words_differ():
    """The words of the indent file that aren't the lexer's, or None."""
    lists = re.findall(r"\\<(?:\\%\()?([a-z\\|]+?)(?:\\\))?\\>", report.text_of('editors', 'vim', 'indent', 'sather.vim'))
    words = {word for found in lists for word in found.split('\\|')}
    wrong = sorted(words - set(words_of_lexer()[0]))
    return 'no words of the language, or none at all: %s' % wrong if wrong or not words else None


def by_vim(sources):
    """For each source the kinds that Vim gives its lines, and the source as Vim indents it."""
    files = {'%d.sa' % place: source for place, source in enumerate(sources)}
    with report.folder_with({**files, 'try.vim': IN_VIM.encode()}) as folder:
        report.run(['vim', '-es', '-u', 'NONE', '-i', 'NONE', '-n', '--cmd', 'set nocompatible runtimepath^=' + VIM, '-S', 'try.vim',
                    *files], folder)
        for name in files:
            with open(os.path.join(folder, name + '.groups'), encoding='utf-8') as groups:
                kinds = [''.join(OF_GROUP[group] for group in line.split(',')) if line else '' for line in groups.read().split('\n')]
            with open(os.path.join(folder, name + '.indented'), 'rb') as indented:
                yield kinds[:-1], indented.read()


def lines_differ(lines, wanted, found):
    """The first line whose kinds are others than those that are wanted, or None."""
    for line, one, other in zip(lines, wanted, found):
        if one.rstrip() != other.rstrip():
            return 'of %r expected the kinds %r, and came %r' % (line, one, other)
    return None if len(wanted) == len(found) else 'expected %d lines, and came %d' % (len(wanted), len(found))


def try_vim(told, grammar):
    """Compares what Vim does with the samples and with the examples."""
    names, (lines, wanted) = examples.names(), (SAMPLES[::2], SAMPLES[1::2])
    sources = [examples.bytes_of(name + '.sa') for name in names]
    answers = by_vim(['\n'.join(lines).encode() + b'\n', *sources])
    told.count('the samples, in Vim', lines_differ(lines, wanted, next(answers)[0]))
    for name, source, (kinds, indented) in zip(names, sources, answers):
        lines = source.decode().splitlines()
        told.count('examples/%s.sa, in Vim' % name, lines_differ(lines, [grammar.kinds(line) for line in lines], kinds))
        told.count('examples/%s.sa, indented by Vim' % name, report.difference(report.Left(source), report.Left(indented)))


def try_page(told, grammar):
    """Compares what the page's script says with the samples and with the examples."""
    sources = {'examples/%s.sa' % name: examples.bytes_of(name + '.sa').decode().splitlines() for name in examples.names()}
    tried = {'the samples': (SAMPLES[::2], SAMPLES[1::2])}
    tried.update({name: (lines, [grammar.kinds(line) for line in lines]) for name, lines in sources.items()})
    lines = json.dumps([line for found, _ in tried.values() for line in found])
    words, pieces = json.loads(subprocess.run(['node', '-e', IN_NODE, PAGE], input=lines, stdout=subprocess.PIPE, text=True,
                                              timeout=report.SECONDS, check=True).stdout)
    told.count('the words of hosts/web', words_differ([(OF_PAGE[kind], words[kind].split()) for kind in words]))
    kinds = iter(''.join(OF_PAGE[kind] * len(text) for kind, text in line) for line in pieces)
    for name, (lines, wanted) in tried.items():
        told.count('%s, in the page' % name, lines_differ(lines, wanted, [next(kinds) for _ in lines]))


def try_all(told):
    """Tries the words, the samples and the examples."""
    grammar = Grammar()
    told.part('editors', 0)
    told.count('the words of editors/vim', words_differ(words_of_vim()))
    told.count('the words of editors/textmate', words_differ(grammar.words()))
    told.count('the words of the indent file', indent_words_differ())
    found = [grammar.kinds(line) for line in SAMPLES[::2]]
    told.count('the samples, by the TextMate grammar', lines_differ(SAMPLES[::2], SAMPLES[1::2], found))
    if shutil.which('vim'):
        try_vim(told, grammar)
    else:
        told.lacks('vim', 'what stands in editors/vim was not run')
    if shutil.which('node'):
        try_page(told, grammar)
    else:
        told.lacks('node', 'the highlighting of hosts/web was not run')


def main():
    told = report.Report()
    try_all(told)
    return told.close()


if __name__ == '__main__':
    sys.exit(main())
