// Runs modules in V8 and tells what they did to their host. Reads lines of JSON from the standard input: {"module": hex, "input": the
// numbers that `get` gives, of which the last is given again and again, "returns": whether `stop` returns, "runs": how often `main` is
// called}. Writes a line of JSON for each.
'use strict';
const readline = require('readline');

class Stopped extends Error {}

// The three functions, which note each call that is made of them.
function host(task, calls) {
  let at = 0;
  return {
    put: (byte) => { calls.push(['put', byte]); },
    get: () => { calls.push(['get']); return task.input[Math.min(at++, task.input.length - 1)]; },
    stop: (code, site) => {
      calls.push(['stop', code, site]);
      if (!task.returns) throw new Stopped('stop');
    },
  };
}

// How a call of `main` ended: by its result, at a stop, by the end of the engine's stack, or by a trap.
function endOf(main) {
  try {
    return `done ${main() ?? 0}`;
  } catch (error) {
    if (error instanceof Stopped) return 'stop';
    if (error instanceof RangeError) return 'the stack';
    return `thrown: ${error.message}`;
  }
}

// Whether a memory grows by a page.
function grows(memory) {
  try {
    memory.grow(1);
    return true;
  } catch {
    return false;
  }
}

function observed(task) {
  const module = new WebAssembly.Module(Buffer.from(task.module, 'hex'));
  const calls = [];
  const {exports} = new WebAssembly.Instance(module, {env: host(task, calls)});
  const early = calls.length;
  const {buffer} = exports.memory;
  const ends = Array.from({length: task.runs}, () => endOf(exports.main));
  return {
    imports: WebAssembly.Module.imports(module).map((one) => [one.module, one.name, one.kind].join(' ')),
    exports: WebAssembly.Module.exports(module).map((one) => [one.name, one.kind].join(' ')),
    early, ends, calls, pages: buffer.byteLength / 65536, kept: exports.memory.buffer === buffer, grows: grows(exports.memory),
  };
}

readline.createInterface({input: process.stdin}).on('line', (line) => {
  console.log(JSON.stringify(observed(JSON.parse(line))));
});
