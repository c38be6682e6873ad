// Tells the kinds of the tokens of a source, for highlighting. The words are those of the lexer, which conformance/editors.py checks.
'use strict';

const WORDS = {
  conditional: 'if then elsif else case typecase when',
  repeat: 'loop yield quit',
  statement: 'is end return assert',
  exception: 'protect raise',
  structure: 'class attr shared const include stub builtin',
  modifier: 'abstract immutable partial private readonly in out inout once',
  operator: 'and or new bind',
  constant: 'true false void',
  self: 'self exception',
  typeword: 'ITER ROUT SAME',
  contract: 'pre post initial result invariant',
  refused: 'external spread fork par parloop lock unlock guard cohort sync near far',
};

const KIND_OF_WORD = new Map(Object.entries(WORDS).flatMap(([kind, words]) => words.split(' ').map((word) => [word, kind])));

// Of the patterns that match at a place the first is taken. A name's kind is that of its word.
const PATTERNS = [
  ['comment', /--.*/y],
  ['string', /"(?:\\.|[^"\\])*(?:"|\\?$)/y],
  ['character', /'(?:\\.|[^'\\])*(?:'|\\?$)/y],
  ['leave', /(?:while|until|break)!/y],
  ['iter', /[A-Za-z]\w*!/y],
  ['abstract', /\$[A-Z][A-Z0-9_]*/y],
  ['name', /[A-Za-z]\w*/y],
  ['number', /0x[0-9A-Fa-f][0-9A-Fa-f_]*|0o[0-7][0-7_]*|0b[01][01_]*|[0-9][0-9_]*/y],
  ['sign', /::=|:=|\/=|<=|>=|->|[-=<>+*/%^~#|]/y],
];
const ESCAPE = /(\\(?:[abfnrtv\\'"]|[0-7]{1,3}))|(\\.)/;

function kindOfName(name) {
  return KIND_OF_WORD.get(name) ?? (/^[A-Z][A-Z0-9_]*$/.test(name) ? 'class' : '');
}

// A literal as its pieces, the escapes apart.
function piecesOfLiteral(kind, text) {
  const pieces = text.split(ESCAPE).map((piece, place) => [['', 'escape', 'badescape'][place % 3] || kind, piece]);
  return pieces.filter(([, piece]) => piece);
}

function tokenAt(line, at) {
  for (const [kind, pattern] of PATTERNS) {
    pattern.lastIndex = at;
    const found = pattern.exec(line);
    if (found) return [kind, found[0]];
  }
  return ['', line[at]];
}

// A line as its pieces: the kind of each, which is empty for what has none, and its text.
function piecesOfLine(line) {
  const pieces = [];
  for (let at = 0; at < line.length;) {
    const [kind, text] = tokenAt(line, at);
    if (kind === 'name') pieces.push([kindOfName(text), text]);
    else if (kind === 'string' || kind === 'character') pieces.push(...piecesOfLiteral(kind, text));
    else pieces.push([kind, text]);
    at += text.length;
  }
  return pieces;
}

// The header of an iter, whose name is no call.
const HEADER = /^\s*(?:private\s+)?[A-Za-z]\w*!(?:\([^)]*\))?(?::[^;]*?)?\s+(?:is|pre|post)\b/;

// From which piece to which a call stands whose iter is one of the pieces: with what it is called on, and with its arguments.
function reachOfCall(pieces, at) {
  const texts = pieces.map(([, text]) => text);
  const over = (place, step, opens, closes) => {
    let [depth, here] = [0, place];
    for (; here >= 0 && here < texts.length; here += step) {
      depth += opens.includes(texts[here]) ? 1 : closes.includes(texts[here]) ? -1 : 0;
      if (depth === 0) break;
    }
    return here;
  };
  const ofLiteral = ['string', 'escape', 'badescape'];
  const [open, close] = [['(', '[', '{', '|'], [')', ']', '}']];
  let [first, last] = [at, at];
  if (texts[at + 1] === '(') last = Math.min(over(at + 1, 1, open, close), texts.length - 1);
  for (;;) {
    const before = texts[first - 1] === '.' ? first - 2 : texts[first - 1] === ':' && texts[first - 2] === ':' ? first - 3 : -1;
    if (before < 0) return [first, last];
    first = close.includes(texts[before]) ? Math.max(over(before, -1, close, open), 0) : before;
    if (first > 0 && close.includes(texts[before]) && /^\w+!?$/.test(texts[first - 1])) first -= 1;
    while (first > 0 && ofLiteral.includes(pieces[first][0]) && ofLiteral.includes(pieces[first - 1][0])) first -= 1;
  }
}

// The iters that a line calls, each with its name and the text of the call, and each after those in its arguments, as calls are
// evaluated. What is bound isn't called.
function iterCalls(line) {
  const pieces = piecesOfLine(line.replace(HEADER, ''));
  const levels = [{calls: [], hasIter: false, before: ''}];
  let before = '';
  pieces.forEach(([kind, text], place) => {
    const level = levels.at(-1);
    if (kind === 'iter') {
      const [first, last] = reachOfCall(pieces, place);
      level.calls.push({name: text, text: pieces.slice(first, last + 1).map(([, piece]) => piece).join('')});
      level.hasIter = true;
    } else if (text === '(') {
      levels.push({calls: [], hasIter: false, before: kind === '' ? before : ''});
    } else if (text === ')' && levels.length > 1) {
      levels.pop();
      if (level.before === 'bind' && level.hasIter) level.calls.pop();
      levels.at(-1).calls.splice(level.before.endsWith('!') ? -1 : Infinity, 0, ...level.calls);
    }
    before = text;
  });
  return levels.flatMap(({calls}) => calls);
}

function callsOfLine(line) {
  return iterCalls(line).map(({name}) => name);
}

// The iter that a name is bound to, where the source says it: the name is given a value in one place, by `bind`, and is declared nowhere
// else. Else null.
function boundTo(source, name) {
  const code = source.split('\n').map((line) => piecesOfLine(line).filter(([kind]) => kind !== 'comment').map(([, text]) => text).join(''));
  const found = [...code.join('\n').matchAll(new RegExp(`(?<![\\w.])${name}\\s*(::=|:=|:(?![:=])|,)`, 'g'))];
  if (found.length !== 1 || found[0][1] === ',') return null;
  const behind = code.join('\n').slice(found[0].index);
  const bound = /^\w+\s*:[^;=]*=\s*bind\(([^;]*)/.exec(behind);
  if (!bound) return null;
  let depth = 0;
  for (const [kind, text] of piecesOfLine(bound[1])) {
    if (kind === 'iter' && depth === 0) return text;
    depth += '([{'.includes(text) ? 1 : ')]}'.includes(text) ? -1 : 0;
  }
  return null;
}

if (typeof module !== 'undefined') module.exports = {WORDS, piecesOfLine, callsOfLine, iterCalls, boundTo};
