// A text of 100,000 items that is put together byte by byte, and read again.
'use strict';

class Buffer {
  constructor() { this.bytes = []; }

  add(text) {
    for (let i = 0; i < text.length; i++) this.bytes.push(text[i]);
  }

  text() { return this.bytes.join(''); }
}

function main() {
  const buffer = new Buffer();
  for (let i = 0; i < 100000; i++) {
    buffer.add('item ');
    buffer.add(String(i * 7919 % 100003));
    buffer.add(',');
  }
  const text = buffer.text();
  let commas = 0;
  let hash = 7;
  for (let i = 0; i < text.length; i++) {
    if (text[i] === ',') commas++;
    hash = (hash * 31 + text.charCodeAt(i)) % 1000003;
  }
  console.log(`${text.length} ${commas} ${hash} ${text.slice(0, 24)}`);
}

main();
