// Runs a module beside the thread that serves it, which reads and writes. The two share the bytes that are to be written.
import {parentPort, receiveMessageOnPort, workerData} from 'node:worker_threads';
import {Unknown, unlinked, withPages} from './reading.mjs';

const [PENDING, ANSWERED] = [0, 1]; // places of `counts`: bytes that are to be written; whether this thread may go on
const LINE_FEED = 10;
const NO_MEMORY = {status: 125, cause: 'out of memory'};

// How a run ends: its status, the cause where there is one, and the numbers of a stop.
class End extends Error {
  constructor(end) {
    super();
    this.end = end;
  }
}

function refused(cause) {
  return new End({status: 126, cause});
}

// Lets the other thread do something, waits until it's done, and gives the answer. The other thread marks an answer before it wakes this
// one; where the mark was seen already, that wakes the next wait, so a wait is over only when the mark stands.
function ask(what, counts) {
  Atomics.store(counts, ANSWERED, 0);
  parentPort.postMessage(what);
  while (Atomics.load(counts, ANSWERED) === 0) Atomics.wait(counts, ANSWERED, 0);
  return receiveMessageOnPort(parentPort)?.message;
}

// The functions of docs/WEBASSEMBLY.md.
function environment({output, counts, lines}) {
  let input = [];
  let at = 0;
  return {
    put: (byte) => {
      const pending = counts[PENDING];
      output[pending] = byte;
      Atomics.store(counts, PENDING, pending + 1);
      if (pending + 1 === output.length || (lines && (byte & 255) === LINE_FEED)) ask({}, counts);
    },
    get: () => {
      if (input !== null && at === input.length) {
        input = ask({read: true}, counts);
        at = 0;
      }
      return input === null ? -1 : input[at++];
    },
    stop: (code, site) => {
      throw new End({status: 121, cause: 'stop', code: code >>> 0, site: site >>> 0});
    },
  };
}

// The module that the bytes spell, if it may be run. V8 doesn't tell a malformed module from an invalid one.
function moduleOf(bytes, pages) {
  if (!WebAssembly.validate(bytes)) throw refused('invalid');
  const limited = pages === undefined ? bytes : withPages(bytes, pages);
  if (limited === undefined) throw new End(NO_MEMORY);
  const number = unlinked(bytes);
  if (number !== undefined) throw refused(`unlinked ${number}`);
  return new WebAssembly.Module(limited);
}

// The end that an error stands for. Its text is the engine's or the module's own, and goes nowhere. Only what is wrong before anything
// runs names the constructor.
function endOf(error) {
  if (error instanceof End) return error.end;
  if (error instanceof Unknown) return refused('invalid').end;
  const before = error instanceof Error && error.message.startsWith('WebAssembly.');
  if (error instanceof RangeError) return before ? NO_MEMORY : refused('too deep').end;
  return refused(before && error instanceof WebAssembly.RuntimeError ? 'segment' : 'trap').end;
}

function run({bytes, pages, shared}) {
  try {
    const instance = new WebAssembly.Instance(moduleOf(bytes, pages), {env: environment(shared)});
    const result = instance.exports.main();
    return {status: result === undefined ? 0 : result & 255};
  } catch (error) {
    return endOf(error);
  }
}

parentPort.postMessage({end: run(workerData)});
