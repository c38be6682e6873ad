// Runs modules that `sather build` wrote, as many at once as are asked for:
//
//     import {Program} from './sather-host.mjs';
//     const program = new Program(fs.readFileSync('hello.wasm'), {name: 'hello.wasm'});
//     const {status, line, output} = await program.run({input: 'a text', seconds: 10});
//
// Each run has an instance and a worker of its own. The worker runs the module, and this thread reads and writes for it: so a run can be
// ended from outside, whatever it is doing, and what it has put out before still comes out.
import {setTimeout as wait} from 'node:timers/promises';
import {Worker} from 'node:worker_threads';

const STACK = 1024;                 // MiB of stack without the option: calls 10,000 deep have room in it
const PAGES = 16;                   // pages of a memory in a MiB
const BUFFER = 65536;               // bytes that are written together
const LONGEST = 2 ** 31 - 1;        // milliseconds that node can wait
const [PENDING, ANSWERED] = [0, 1]; // places of `counts`: bytes that are to be written; whether the worker may go on
const NO_MEMORY = ['ERR_WORKER_INIT_FAILED', 'ERR_WORKER_OUT_OF_MEMORY'];

// The texts of the faults, by the codes of `env.stop`.
export const FAULTS = ['', 'overflow', 'division by zero', 'void', 'index', 'no branch', 'no return', 'assert', 'uncaught', 'no room',
  'too deep', 'frames'];

// Whether a value is what `sather build --sites` writes.
export function areSites(value) {
  return Array.isArray(value) && value.every((site) => typeof site?.file === 'string' && Number.isInteger(site.line));
}

async function* piecesOf(input) {
  if (typeof input === 'string') yield new TextEncoder().encode(input);
  else if (input instanceof Uint8Array) yield input;
  else yield* input;
}

// The next bytes of an input, or null at its end. What has no bytes isn't the end.
async function nextOf(pieces) {
  for (;;) {
    const {done, value} = await pieces.next();
    if (done) return null;
    if (value.length > 0) return value;
  }
}

// A run of a module. `ended` is a promise of its result, and never fails.
class Run {
  #worker;
  #shared;
  #input;
  #collected = [];
  #take;
  #left;
  #writing = Promise.resolve();
  #settle;
  #isOver = false;

  constructor(program, {input = '', write, seconds, stack = STACK, memory, output = Infinity, lines = false}) {
    this.program = program;
    this.ended = new Promise((resolve) => { this.#settle = resolve; });
    this.#take = write ?? ((bytes) => { this.#collected.push(bytes); });
    this.#left = output;
    this.#input = piecesOf(input);
    this.#shared = {
      output: new Uint8Array(new SharedArrayBuffer(BUFFER)), counts: new Int32Array(new SharedArrayBuffer(8)), lines,
    };
    const pages = memory === undefined ? undefined : Math.min(memory * PAGES, 65536);
    this.#worker = new Worker(new URL('./worker.mjs', import.meta.url), {
      workerData: {bytes: program.bytes, pages, shared: this.#shared}, resourceLimits: {stackSizeMb: stack},
    });
    this.#worker.on('message', (asked) => { this.#serve(asked); });
    this.#worker.on('error', (error) => {
      this.#end(NO_MEMORY.includes(error.code) ? {status: 125, cause: 'out of memory'} : {status: 70, cause: 'internal error'});
    });
    if (seconds !== undefined) this.#endAfter(Math.min(seconds * 1000, LONGEST));
  }

  // Ends the run. What it has put out up to now is written.
  stop() {
    return this.#end({status: 122, cause: 'stopped'});
  }

  async #endAfter(milliseconds) {
    await wait(milliseconds, undefined, {ref: false});
    this.#end({status: 122, cause: 'time spent'});
  }

  // Does what the worker asks for.
  async #serve(asked) {
    try {
      await this.#write();
      if (asked.end) await this.#end(asked.end);
      if (this.#isOver) return;
      if (asked.read) this.#worker.postMessage(await this.#read());
    } catch (error) {
      await this.#end(error);
      return;
    }
    Atomics.store(this.#shared.counts, ANSWERED, 1);
    Atomics.notify(this.#shared.counts, ANSWERED);
  }

  async #read() {
    try {
      return await nextOf(this.#input);
    } catch {
      throw {status: 123, cause: 'input fault'};
    }
  }

  // Writes the bytes that are pending, as far as the output may go, one call after the other.
  #write() {
    this.#writing = this.#writing.then(async () => {
      const {output, counts} = this.#shared;
      const pending = Atomics.load(counts, PENDING);
      const due = Math.min(pending, this.#left);
      if (due > 0) {
        try {
          await this.#take(output.slice(0, due));
        } catch {
          throw {status: 123, cause: 'output fault'};
        }
      }
      if (due < pending) throw {status: 122, cause: 'output spent'};
      this.#left -= due;
      Atomics.store(counts, PENDING, 0);
    });
    return this.#writing;
  }

  // Ends the worker, writes what it has left, and gives the result; the first end is the one that counts.
  async #end(end) {
    if (!this.#isOver) {
      this.#isOver = true;
      await this.#worker.terminate();
      let told = end;
      // Where a write has failed, nothing is written any more.
      await this.#write().catch((failed) => { told = end.cause === undefined || end.status === 121 || end.status === 122 ? failed : end; });
      this.#settle(this.program.result(told, Buffer.concat(this.#collected)));
    }
    return this.ended;
  }
}

// A module, with the name that lines have for it, and the sites that `sather build --sites` wrote beside it.
export class Program {
  constructor(bytes, {name = 'module', sites = []} = {}) {
    if (!areSites(sites)) throw new TypeError('sites are an array of objects with a file and a line');
    this.bytes = bytes;
    this.name = name;
    this.sites = sites;
  }

  // Begins a run.
  start(options = {}) {
    return new Run(this, options);
  }

  // The result of a run.
  run(options = {}) {
    return this.start(options).ended;
  }

  // What a run has left, with the line that `sather exec` puts on err; with the sites a fault has the line of `sather run`.
  result({status, cause, code, site}, output) {
    if (cause === undefined) return {status, line: '', output};
    if (cause !== 'stop') return {status, line: status === 126 ? `${this.name}: ${cause}` : cause, output};
    const place = this.sites[site];
    const text = FAULTS[code];
    const line = place && text ? `${place.file}:${place.line}: fault: ${text}` : `${this.name}: stop ${code} at ${site}`;
    return {status, line, output, fault: {code, site, text, ...place}};
  }
}
