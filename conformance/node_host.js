// Runs programs by hosts/node/sather-host.mjs, several at once, and tells what each has left. The words are the library, the module of a
// program that copies its input, and that of one that never ends.
'use strict';
const fs = require('fs');

async function* slowly(text) {
  for (const letter of text) {
    await new Promise((resolve) => { setTimeout(resolve, 5); });
    yield Buffer.from(letter);
  }
}

function told({status, line, output, fault}) {
  return {status, line, output: Buffer.from(output).toString('latin1'), fault};
}

async function main([library, copy, endless]) {
  const {Program, FAULTS, areSites} = await import(library);
  const [copies, loops] = [new Program(fs.readFileSync(copy), {name: 'c'}), new Program(fs.readFileSync(endless), {name: 'e'})];
  const texts = ['one', 'two', 'three', 'four', 'five', 'six'];
  const pieces = [];
  const stopped = loops.start();
  const waiting = copies.start({input: slowly('a'.repeat(1e6))});
  const seen = new Promise((resolve) => { loops.run({lines: true, seconds: 60, write: resolve}); });
  const found = {
    inputs: (await Promise.all(texts.map((input) => copies.run({input})))).map(told),
    pieces: told(await copies.run({input: slowly('a text'), write: async (bytes) => { pieces.push(...bytes); }})),
    written: Buffer.from(pieces).toString(),
    late: told(await loops.run({seconds: 1})).line,
    spent: told(await copies.run({input: 'abcdef', output: 4})),
    small: told(await copies.run({input: 'abcdef', memory: 1})),
    full: told(await copies.run({input: 'a', write: () => { throw new Error('no'); }})),
    unread: told(await copies.run({input: (async function* fail() { throw new Error('no'); })()})),
    line: Buffer.from(await seen).toString(),
    stopped: told(await stopped.stop()),
    waiting: told(await waiting.stop()).line,
    faults: FAULTS.length, sites: [areSites([{file: 'a', line: 1}]), areSites(null), areSites([null])],
  };
  console.log(JSON.stringify(found));
  process.exit(0);
}

main(process.argv.slice(2));
