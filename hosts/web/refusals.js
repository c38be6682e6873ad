// Reads what the compiler or a run tells of a source: refusals and faults, each with its place, and with what it means there.
'use strict';

const TOLD = /^(.+?):(\d+)(?::\d+)?: (E\d\d|fault): (.*)$/;
const HEAD = /^(E\d\d|fault): (.*) in line (\d+) of (.+):$/;     // of what is told behind the lines, where there are several
const DRAWN = /^ *(\d+) \| (.*)$/;
const CARETS = /^ *\| (\s*)(\^+)$/;

// The refusals and faults that are told, in their order. `drawn` is the piece of the source that is shown, and `caret` the place in it
// and the length that are marked there, in characters.
function readRefusals(text) {
  const found = [];
  let now = null;
  for (const line of text.split('\n')) {
    const [told, head, drawn, carets] = [TOLD, HEAD, DRAWN, CARETS].map((pattern) => pattern.exec(line));
    if (told) {
      now = {file: told[1], line: Number(told[2]), code: told[3], text: told[4], sentences: []};
      found.push(now);
    } else if (head) {
      now = found.find((one) => `${one.code}: ${one.text} in line ${one.line} of ${one.file}:` === line && !one.isTold) ?? null;
      if (now) now.isTold = true;
    } else if (drawn) {
      if (now && Number(drawn[1]) === now.line) now.drawn ??= drawn[2];
    } else if (carets) {
      if (now) now.caret ??= [[...carets[1]].length, carets[2].length];
    } else if (line && now) {
      now.sentences.push(line);
    }
  }
  return found;
}

// From where to where a refusal is marked in its line, or null where that isn't told.
function placeIn(line, {drawn, caret}) {
  const start = drawn === undefined || !caret ? -1 : line.indexOf(drawn);
  if (start < 0) return null;
  const behind = (count) => start + [...drawn].slice(0, count).join('').length;
  return [behind(caret[0]), behind(caret[0] + caret[1])];
}

function isOfPrelude({file}) {
  return file.endsWith('prelude');
}

// The address of what is to say about a refusal or a fault.
function pageOf({code, text}) {
  return code === 'fault' ? `about-fault-${text.replaceAll(' ', '-')}` : `about-${code}`;
}

// The file of the library that a refusal proposes, or null.
function proposedBy({sentences}) {
  return /`sather lib (\w+) > /.exec(sentences.join('\n'))?.[1] ?? null;
}

// What is told of a refusal: its place, which a button goes to; what it is, linked to what is to say about it; what it means here; and,
// where the library has what is missing, a button that adds it.
function refusalNode(refusal, {goTo, add}) {
  const {line, code, text, sentences} = refusal;
  const place = isOfPrelude(refusal) ? `Line ${line} of the prelude` : element('button', {type: 'button', class: 'place'}, `Line ${line}`);
  if (!isOfPrelude(refusal)) place.onclick = () => goTo(refusal);
  const head = spanOf('head', place, ': ', element('a', {href: `#${pageOf(refusal)}`}, `${code}: ${text}`));
  const name = proposedBy(refusal);
  const said = sentences.filter((sentence) => !sentence.includes('`sather lib '));
  const node = element('li', {}, head, ...said.map((sentence) => spanOf('sentence', ...inlineNodes(sentence))));
  if (name) {
    const button = element('button', {type: 'button', class: 'proposed'}, `Add ${name}`);
    button.onclick = () => add(name);
    node.append(spanOf('sentence', 'The library has it. ', button));
  }
  return node;
}

if (typeof module !== 'undefined') module.exports = {readRefusals, placeIn, pageOf, proposedBy};
