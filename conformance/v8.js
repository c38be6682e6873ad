// Judges modules with V8. Reads lines of JSON, {"module": hex, "input": hex, "run": true or false}, from the standard input,
// and writes a line of JSON for each: {"valid": true or false} and, where it was run, how it ended and its output in hex. Where
// node lets it, it gives back what the modules took after each hundred of them.
'use strict';
const readline = require('readline');

class Stopped extends Error {}

// How a run that threw has ended.
function endOf(error) {
  if (error instanceof Stopped) return error.message;
  if (error instanceof WebAssembly.LinkError) return 'unlinked';
  if (error instanceof RangeError) return 'too deep';
  if (!(error instanceof WebAssembly.RuntimeError)) return 'unlinked';
  // The start function is called by the constructor too, but only the constructor's own faults name it.
  return error.message.startsWith('WebAssembly.Instance()') ? 'segment' : 'trap';
}

// Runs the start function and `main`. Gives how that ended and the output.
function run(module, input) {
  const output = [];
  let at = 0;
  const env = {
    put: (byte) => { output.push(byte & 255); },
    get: () => (at < input.length ? input[at++] : -1),
    stop: (code, site) => { throw new Stopped(`stop ${code >>> 0} at ${site >>> 0}`); },
  };
  let end;
  try {
    const result = new WebAssembly.Instance(module, {env}).exports.main();
    end = `done ${result === undefined ? 0 : result & 255}`;
  } catch (error) {
    end = endOf(error);
  }
  return {end, output: Buffer.from(output).toString('hex')};
}

function judge(task) {
  const bytes = Buffer.from(task.module, 'hex');
  if (!WebAssembly.validate(bytes)) return {valid: false};
  if (!task.run) return {valid: true};
  return {valid: true, ...run(new WebAssembly.Module(bytes), Buffer.from(task.input, 'hex'))};
}

let judged = 0;
readline.createInterface({input: process.stdin}).on('line', (line) => {
  process.stdout.write(JSON.stringify(judge(JSON.parse(line))) + '\n');
  judged += 1;
  if (global.gc && judged % 100 === 0) global.gc();
});
