// The editor: a text area whose text is seen through it, highlighted, in the lines below. Lines can be marked, with a note behind them.
'use strict';

const OPENS = ['is', 'if', 'loop', 'case', 'typecase', 'protect'];
const CLOSES = /^ +(?:end|else|elsif|when)[; ]?$/;
const STEP = '   ';

// Where the line behind this one begins: a step further in for each block that it opens, and further out for each that it closes. The
// word that a line begins with stands as far out already.
function indentBehind(line) {
  const words = piecesOfLine(line).filter(([kind]) => kind).map(([, text]) => text);
  const count = (which) => words.filter((word) => which.includes(word)).length;
  const stands = /^ *(?:end|else|elsif|when)\b/.test(line) ? 1 : 0;
  const steps = /^ */.exec(line)[0].length / STEP.length + count(OPENS) - count(['end']) + stands;
  return STEP.repeat(Math.max(0, Math.floor(steps)));
}

function spanOf(name, ...inside) {
  const span = document.createElement('span');
  span.className = name;
  span.append(...inside);
  return span;
}

// A piece of a line, which begins at a column, cut where one of the places begins or ends. What is in a place is marked.
function cut([kind, text], at, places) {
  const ends = places.flat().map((column) => column - at).filter((column) => column > 0 && column < text.length);
  const cuts = [0, ...new Set(ends), text.length].sort((one, other) => one - other);
  return cuts.slice(1).map((end, place) => {
    const isMarked = places.some(([from, to]) => from <= at + cuts[place] && at + end <= to);
    const names = [kind && `of-${kind}`, isMarked && 'is-place'].filter(Boolean).join(' ');
    const piece = text.slice(cuts[place], end);
    return names ? spanOf(names, piece) : piece;
  });
}

// A line of a source, highlighted, with these places marked. A place behind its end is marked too.
function lineNode(text, places = []) {
  const code = text.trimStart();
  let at = text.length - code.length;
  const nodes = [];
  for (const piece of piecesOfLine(code)) {
    nodes.push(...cut(piece, at, places));
    at += piece[1].length;
  }
  if (places.some(([, to]) => to > text.length)) nodes.push(spanOf('is-place', ' '));
  return spanOf('line', text.slice(0, text.length - code.length), spanOf('code', ...nodes));
}

class Editor {
  constructor(area, lines, changed) {
    this.area = area;
    this.lines = lines;
    this.texts = [];
    this.marks = [];
    area.addEventListener('input', ({inputType, data}) => {
      if (inputType === 'insertText' && (data === ';' || data === ' ')) this.stepOut();
      this.draw();
      changed();
    });
    area.addEventListener('keydown', (event) => this.keepIndent(event));
  }

  get text() {
    return this.area.value;
  }

  set text(text) {
    this.area.value = text;
    this.draw();
    this.area.setSelectionRange(0, 0);
    this.area.parentElement.parentElement.scrollTo(0, 0);
  }

  // Draws the lines that aren't as they were: those between the ones that stand unchanged in front and behind.
  draw() {
    this.clearMarks();
    const [before, now] = [this.texts, this.area.value.split('\n')];
    let front = 0;
    while (front < Math.min(before.length, now.length) && before[front] === now[front]) front += 1;
    let back = 0;
    while (back < Math.min(before.length, now.length) - front && before.at(-1 - back) === now.at(-1 - back)) back += 1;
    const old = [...this.lines.children].slice(front, before.length - back);
    const next = this.lines.children[before.length - back] ?? null;
    for (const node of old) node.remove();
    for (const text of now.slice(front, now.length - back)) this.lines.insertBefore(lineNode(text), next);
    this.texts = now;
  }

  // The lines up to the place where something is typed, the last of them up to this place.
  get front() {
    return this.text.slice(0, this.area.selectionStart).split('\n');
  }

  // A new line begins where the one before it does, or a step further in where that opens a block.
  keepIndent(event) {
    if (event.key !== 'Enter' || event.isComposing || event.ctrlKey || event.metaKey) return;
    event.preventDefault();
    this.stepOut();
    document.execCommand('insertText', false, `\n${indentBehind(this.front.at(-1))}`);
  }

  // A word that closes a block or a part of it goes a step out, where it stands first in a line that is as far in as the block.
  stepOut() {
    const lines = this.front;
    const line = lines.pop();
    const indent = /^ */.exec(line)[0];
    const before = lines.findLast((one) => one.trim()) ?? '';
    if (!CLOSES.test(line) || indent !== indentBehind(before)) return;
    const at = this.area.selectionStart;
    const start = at - line.length;
    this.area.setSelectionRange(start, start + STEP.length);
    document.execCommand('delete');
    this.area.setSelectionRange(at - STEP.length, at - STEP.length);
  }

  // Takes away the marks of a kind, or all.
  clearMarks(kind) {
    const isGone = (mark) => !kind || mark.kind === kind;
    for (const {kind: marked, node, note, line, places} of this.marks.filter(isGone)) {
      node.classList.remove(marked);
      if (note) delete node.dataset.note;
      if (places.length) node.replaceChildren(...lineNode(this.texts[line - 1]).childNodes);
    }
    this.marks = this.marks.filter((mark) => !isGone(mark));
    if (!this.marks.some((mark) => mark.kind === 'is-refused')) this.area.removeAttribute('aria-invalid');
  }

  // Marks lines, counted from 1, in place of those that had this mark, and brings the first into view. Each may have a note, and places in
  // it that are marked too.
  mark(kind, ...rows) {
    this.clearMarks(kind);
    for (const {line, note = '', places = []} of rows) {
      const node = this.lines.children[line - 1];
      if (node) {
        node.classList.add(kind);
        if (note) node.dataset.note = note;
        if (places.length) node.replaceChildren(...lineNode(this.texts[line - 1], places).childNodes);
        this.marks.push({kind, node, line, note, places});
      }
    }
    if (this.marks.some((mark) => mark.kind === 'is-refused')) this.area.setAttribute('aria-invalid', 'true');
    const first = this.marks.find((mark) => mark.kind === kind);
    if (first) this.reveal(first.node);
  }

  // Puts the cursor to a column of a line.
  goTo(line, column = 0) {
    const at = this.texts.slice(0, line - 1).reduce((sum, text) => sum + text.length + 1, column);
    this.area.focus({preventScroll: true});
    this.area.setSelectionRange(at, at);
    if (this.lines.children[line - 1]) this.reveal(this.lines.children[line - 1]);
  }

  // Puts a text in place of what stands between two places, so that it can be undone by the keys. The focus stays where it is.
  replace(from, to, text) {
    const focused = document.activeElement;
    this.area.focus({preventScroll: true});
    this.area.setSelectionRange(from, to);
    document.execCommand(text ? 'insertText' : 'delete', false, text);
    focused.focus({preventScroll: true});
  }

  reveal(node) {
    const box = this.area.parentElement.parentElement;
    const [top, height] = [node.offsetTop, node.offsetHeight];
    if (top < box.scrollTop + height || top > box.scrollTop + box.clientHeight - 3 * height) {
      box.scrollTo(0, Math.max(0, top - box.clientHeight / 2));
    }
  }
}
