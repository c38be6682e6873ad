// Shows a section of a page of docs/ beside the editor: a lesson, or what a refusal or a fault means. Its programs can be put into the
// editor.
'use strict';

const INLINE = /`([^`]*)`|\*\*(.*?)\*\*|\[((?:`[^`]*`|[^\]])*)\]\((#[^)]*)\)/g;

function element(name, attributes = {}, ...inside) {
  const node = document.createElement(name);
  for (const [key, value] of Object.entries(attributes)) node.setAttribute(key, value);
  node.append(...inside);
  return node;
}

// A text with its code, its bold words, and its links.
function inlineNodes(text) {
  const nodes = [];
  let at = 0;
  for (const found of text.matchAll(INLINE)) {
    const [all, code, bold, label, target] = found;
    nodes.push(text.slice(at, found.index));
    if (code !== undefined) nodes.push(element('code', {}, code));
    else if (bold !== undefined) nodes.push(element('strong', {}, ...inlineNodes(bold)));
    else nodes.push(element('a', {href: target}, ...inlineNodes(label)));
    at = found.index + all.length;
  }
  return [...nodes, text.slice(at)].filter((node) => node !== '');
}

// `put` is given a program that is to stand in the editor; `closed` is called when the section is closed.
class Reader {
  constructor(root, put, closed) {
    const find = (name) => root.querySelector(`[data-part="${name}"]`);
    [this.title, this.text, this.turns, this.close] = ['title', 'text', 'turns', 'close'].map(find);
    [this.root, this.put] = [root, put];
    this.close.onclick = () => closed();
    root.onkeydown = ({key}) => {
      if (key === 'Escape') closed();
    };
  }

  get isOpen() {
    return !this.root.hidden;
  }

  hide() {
    this.root.hidden = true;
  }

  // Shows a section, with ways to the one before it and the one behind it in its row.
  show(section, row, takesFocus) {
    let count = 0;
    const total = section.parts.filter(({program}) => program).length;
    this.title.textContent = section.title;
    this.text.replaceChildren(...section.parts.map((part) => {
      if (part.text !== undefined) return element('p', {}, ...inlineNodes(part.text));
      if (part.block !== undefined) return element('pre', {tabindex: '0'}, part.block);
      count += 1;
      return this.programNode(part.program, total > 1 ? `program ${count}` : 'the program');
    }));
    const at = row.indexOf(section);
    this.turns.replaceChildren(this.turn('Before', row[at - 1]), this.turn('Next', row[at + 1]));
    this.root.hidden = false;
    this.root.scrollTo(0, 0);
    if (takesFocus) this.title.focus();
  }

  programNode(program, name) {
    const button = element('button', {type: 'button'}, `Put ${name} into the editor`);
    button.onclick = () => this.put(program);
    const lines = program.source.replace(/\n$/, '').split('\n').map((line) => lineNode(line));
    return element('div', {class: 'listing', role: 'group', 'aria-label': name}, element('pre', {tabindex: '0'}, ...lines), button);
  }

  turn(word, section) {
    return section ? element('a', {href: `#${section.name}`}, `${word}: ${section.title}`) : '';
  }
}
