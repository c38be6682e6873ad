// Reads what a module says of its functions and of its memory, which V8 reports by names alone: the types of the imports and of `main`.
// The bytes are those of a module that V8 calls valid, so what can't be read here is a feature that came after WebAssembly 1.0.

const [TYPE, IMPORT, FUNCTION, MEMORY, EXPORT] = [1, 2, 3, 5, 7];
const [FUNC, TABLE, MEM, GLOBAL] = [0, 1, 2, 3];
const FORM = 0x60;                  // of a function type
const I32 = 0x7f;
// The functions of docs/WEBASSEMBLY.md, by their types.
const HOST = new Map([['env.put', `${I32}:`], ['env.get', `:${I32}`], ['env.stop', `${I32},${I32}:`]]);
const MAIN = [':', `:${I32}`];
const text = new TextDecoder();

// What came after 1.0.
export class Unknown extends Error {}

class Reader {
  constructor(bytes, at, end) {
    Object.assign(this, {bytes, at, end});
  }

  byte() {
    if (this.at >= this.end) throw new Unknown();
    return this.bytes[this.at++];
  }

  number() {
    let [number, factor, byte] = [0, 1, 0];
    do {
      byte = this.byte();
      number += (byte & 127) * factor;
      factor *= 128;
    } while (byte >= 128);
    return number;
  }

  vector(entry) {
    return Array.from({length: this.number()}, () => entry());
  }

  name() {
    const length = this.number();
    this.at += length;
    return text.decode(this.bytes.subarray(this.at - length, this.at));
  }

  type() {
    if (this.byte() !== FORM) throw new Unknown();
    return [this.vector(() => this.byte()), this.vector(() => this.byte())].join(':');
  }

  limits() {
    const flags = this.byte();
    if (flags > 1) throw new Unknown();
    const least = this.number();
    return flags === 1 ? [least, this.number()] : [least];
  }

  // An import: its name, and for a function the number of its type.
  imported() {
    const name = `${this.name()}.${this.name()}`;
    const kind = this.byte();
    if (kind === FUNC) return {name, type: this.number()};
    if (kind === TABLE || kind === GLOBAL) this.byte();
    if (kind === GLOBAL) this.byte();
    else if (kind === TABLE || kind === MEM) this.limits();
    else throw new Unknown();
    return {name};
  }
}

// The readers of the sections, by their numbers, each at its content.
function sectionsOf(bytes) {
  const reader = new Reader(bytes, 8, bytes.length);
  const found = new Map();
  while (reader.at < bytes.length) {
    const number = reader.byte();
    const length = reader.number();
    found.set(number, new Reader(bytes, reader.at, reader.at + length));
    reader.at += length;
  }
  return found;
}

// The number that `exec` gives an unlinked module: that of the first import that isn't the host's, or the number of imports where there is
// no `main` as it has to be. Undefined where the module is linked.
export function unlinked(bytes) {
  const sections = sectionsOf(bytes);
  const read = (number, entry) => {
    const reader = sections.get(number);
    return reader ? reader.vector(() => entry(reader)) : [];
  };
  const types = read(TYPE, (reader) => reader.type());
  const imports = read(IMPORT, (reader) => reader.imported());
  const functions = read(FUNCTION, (reader) => reader.number());
  const exports = read(EXPORT, (reader) => [reader.name(), reader.byte(), reader.number()]);
  const wrong = imports.findIndex(({name, type}) => type === undefined || types[type] !== HOST.get(name));
  if (wrong >= 0) return wrong;
  // All imports are functions here, and come before the module's own.
  const main = exports.find(([name, kind]) => name === 'main' && kind === FUNC)?.[2];
  return MAIN.includes(types[functions[main - imports.length]]) ? undefined : imports.length;
}

function spelled(number) {
  const bytes = [];
  for (; number >= 128; number = Math.floor(number / 128)) bytes.push(number % 128 + 128);
  return [...bytes, number];
}

// The module whose memory has so many pages at most, or undefined where it begins with more.
export function withPages(bytes, pages) {
  const section = sectionsOf(bytes).get(MEMORY);
  const [limits] = section ? section.vector(() => section.limits()) : [];
  if (limits === undefined) return bytes;
  const [least, most = Infinity] = limits;
  if (least > pages) return undefined;
  const content = [1, 1, ...spelled(least), ...spelled(Math.min(most, pages))];
  const {end} = section;
  // The section's number and length stand before its content. The length may be spelled with bytes to spare.
  const begin = beginOf(bytes, section);
  const put = [MEMORY, ...spelled(content.length), ...content];
  const made = new Uint8Array(begin + put.length + bytes.length - end);
  made.set(bytes.subarray(0, begin));
  made.set(put, begin);
  made.set(bytes.subarray(end), begin + put.length);
  return made;
}

// Where the section begins that ends where this one does.
function beginOf(bytes, section) {
  const reader = new Reader(bytes, 8, bytes.length);
  for (;;) {
    const begin = reader.at;
    reader.byte();
    const length = reader.number();
    reader.at += length;
    if (reader.at === section.end && bytes[begin] === MEMORY) return begin;
  }
}
