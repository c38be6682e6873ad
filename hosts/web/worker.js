// Runs a module in a worker, by the interface of docs/WEBASSEMBLY.md. What it puts out stands in memory that it shares with the page,
// so that it is there even where the page ends the worker. Where a browser shares none, as with a page that came over a network without
// encryption, it is sent: each line, and what has waited for a while.
'use strict';

const COUNT = 0;        // place of `counts`: bytes that were put out
const LINE_FEED = 10;
const AT_ONCE = 1000;   // bytes of an output whose beginning is sent byte by byte
const WAITS = 20;       // milliseconds that a byte waits for others

// How a run ends: with the status of `main`, or by the cause that it tells.
class End extends Error {}

// What puts a byte where the page reads it.
function putsInto({output, counts}) {
  let count = 0;
  return (byte) => {
    if (count === output.length) throw new End('output');
    output[count] = byte;
    count += 1;
    Atomics.store(counts, COUNT, count);
  };
}

// What sends bytes to the page, and `flush`, which sends those that wait.
function sender({most}) {
  let [count, held, sent] = [0, [], performance.now()];
  const flush = () => {
    if (held.length) postMessage({piece: new Uint8Array(held)});
    [held, sent] = [[], performance.now()];
  };
  const put = (byte) => {
    if (count === most) throw new End('output');
    count += 1;
    held.push(byte);
    if (count < AT_ONCE || byte === LINE_FEED || performance.now() - sent > WAITS) flush();
  };
  return {put, flush};
}

function environment({input}, put) {
  let at = 0;
  return {
    put,
    get: () => (at < input.length ? input[at++] : -1),
    stop: (code) => {
      throw new End(`stop ${code >>> 0}`);
    },
  };
}

function causeOf(error) {
  if (error instanceof End) return error.message;
  if (error instanceof RangeError) return error.message.startsWith('WebAssembly') ? 'memory' : 'deep';
  return `trap: ${error.message}`;
}

onmessage = ({data}) => {
  const {put, flush} = data.output ? {put: putsInto(data), flush: () => {}} : sender(data);
  let how;
  try {
    const instance = new WebAssembly.Instance(data.module, {env: environment(data, put)});
    how = {status: (instance.exports.main() ?? 0) & 255};
  } catch (error) {
    how = {cause: causeOf(error)};
  }
  flush();
  postMessage(how);
};
