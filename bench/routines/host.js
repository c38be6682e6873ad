// Runs a module that the program built, with an empty input, and writes its output at the end.
'use strict';
const fs = require('fs');

class Stopped extends Error {}

const output = [];
const env = {
  put: (byte) => { output.push(byte & 255); },
  get: () => -1,
  stop: (code, site) => { throw new Stopped(`stop ${code >>> 0} at ${site >>> 0}`); },
};
const module_ = new WebAssembly.Module(fs.readFileSync(process.argv[2]));
process.exitCode = new WebAssembly.Instance(module_, {env}).exports.main() & 255;
fs.writeSync(1, Buffer.from(output));
