// Has sources compiled and run: by the server, and by a worker that is ended when its time is up.
'use strict';

const RUN_SECONDS = 10;           // that a run may take
const MOST_OUTPUT = 1 << 20;      // bytes that it may put out
const SHOWN_EVERY = 50;           // milliseconds from one look at the output to the next

// What the number of a fault says, as the table of docs/LANGUAGE.md has it.
const FAULTS = ['', 'overflow', 'division by zero', 'void', 'index', 'no branch', 'no return', 'assert', 'uncaught', 'no room',
  'too deep', 'frames'];

function post(path, what) {
  return fetch(path, {method: 'POST', headers: {'Content-Type': 'application/json'}, body: JSON.stringify(what)});
}

// The module of a source, or the lines that refuse it.
async function compile(source) {
  const answer = await post('build', {source});
  if (!answer.ok) return {lines: await answer.text()};
  return {module: await WebAssembly.compile(await answer.arrayBuffer())};
}

// The lines that a run beside the server leaves: those of its fault.
async function linesThere(source, input) {
  const answer = await post('run', {source, input});
  if (!answer.ok) throw new Error(await answer.text());
  return answer.text();
}

// The lines that tell all refusals of a source, and what each means.
async function refusalsThere(source) {
  const answer = await post('check', {source});
  if (!answer.ok) throw new Error(await answer.text());
  return answer.text();
}

// What a traced run beside the server leaves: its output as bytes, its lines, of each line how many of these bytes stand before it, and
// the status, which is null where the server ended it.
async function traceThere(source, input) {
  const answer = await post('trace', {source, input});
  if (!answer.ok) throw new Error(await answer.text());
  const left = await answer.json();
  return {...left, output: Uint8Array.from(atob(left.output), (sign) => sign.charCodeAt(0))};
}

// A run of a module with an input. `show` is given the output piece by piece; `ended` is what the run has come to: a status or a
// cause. `stop` ends it.
class Run {
  constructor(module, input, show) {
    const isShared = typeof SharedArrayBuffer !== 'undefined' && self.crossOriginIsolated;
    this.output = isShared ? new Uint8Array(new SharedArrayBuffer(MOST_OUTPUT)) : null;
    this.counts = isShared ? new Int32Array(new SharedArrayBuffer(4)) : null;
    this.shown = 0;
    this.show = show;
    this.decoder = new TextDecoder();
    this.worker = new Worker('worker.js');
    this.ended = new Promise((resolve) => {
      this.resolve = resolve;
    });
    this.worker.onmessage = ({data}) => (data.piece ? this.take(data.piece) : this.end(data));
    this.worker.onerror = (error) => this.end({cause: `trap: ${error.message}`});
    this.clock = setTimeout(() => this.end({cause: 'time'}), RUN_SECONDS * 1000);
    this.looks = isShared ? setInterval(() => this.look(), SHOWN_EVERY) : null;
    const {output, counts} = this;
    this.worker.postMessage({module, input: new TextEncoder().encode(input), output, counts, most: MOST_OUTPUT});
  }

  // Shows bytes that were put out.
  take(bytes, isLast) {
    const text = this.decoder.decode(bytes, {stream: !isLast});
    if (text) this.show(text);
  }

  look(isLast) {
    const count = Atomics.load(this.counts, 0);
    // The decoder doesn't take memory that is shared.
    this.take(this.output.slice(this.shown, count), isLast);
    this.shown = count;
  }

  end(how) {
    this.worker.terminate();
    clearTimeout(this.clock);
    clearInterval(this.looks);
    if (this.counts) this.look(true);
    else this.take(new Uint8Array(), true);
    this.resolve(how);
  }

  stop() {
    this.end({cause: 'stopped'});
  }
}

// What a run has come to, in words.
function wordsOfEnd({status, cause}) {
  if (cause === undefined) return status === 0 ? 'Ended.' : `Ended with status ${status}.`;
  if (cause === 'time') return `Stopped: it was running for ${RUN_SECONDS} seconds.`;
  if (cause === 'stopped') return 'Stopped.';
  if (cause === 'output') return 'Stopped: it put out a million bytes.';
  if (cause === 'deep') return 'Stopped: its calls went deeper than the stack of the browser.';
  if (cause === 'memory') return 'The browser has no memory for it.';
  const [word, code] = cause.split(' ');
  return word === 'stop' ? `Fault: ${FAULTS[code] ?? code}.` : `The engine ended it: ${cause}.`;
}
