#!/usr/bin/env node
// run.js [--seconds N] [--stack MIB] [--memory MIB] [--output KIB] [--sites SITES] MODULE
//
// Runs a module that `sather build` wrote, with the statuses and the lines on err of `sather exec`; with the sites that it wrote beside the
// module, a fault has its line of the source, as by `sather run`. sather-host.mjs does it, with the streams of this process.
'use strict';
const fs = require('fs');
const tty = require('tty');
const {setTimeout: wait} = require('timers/promises');
const {parseArgs, promisify} = require('util');

const USAGE = 'usage: node run.js [--seconds N] [--stack MIB] [--memory MIB] [--output KIB] [--sites SITES] MODULE';
const KIB = 1024;
const AGAIN = 10;                   // milliseconds after which a pipe that takes none is asked again
const LAST = 1000;                  // milliseconds that the last bytes may take where a signal ends the run
const SIGNALS = ['SIGINT', 'SIGTERM', 'SIGHUP'];
const writeSome = promisify(fs.write);

// Ends the process, with a line on err where there is one.
function leave(status, line) {
  try {
    if (line) fs.writeSync(2, `${line}\n`);
  } catch {
    // Where err fails, the status stays.
  }
  process.exit(status);
}

// The limits, the sites and the module that the words ask for. A number is one to nine digits, and not 0.
function command(words) {
  const option = {type: 'string'};
  try {
    const {values, positionals} = parseArgs({
      args: words,
      allowPositionals: true,
      options: {seconds: option, stack: option, memory: option, output: option, sites: option},
    });
    const {sites, ...limits} = values;
    const numbers = Object.values(limits).every((text) => /^0*[1-9][0-9]{0,8}$/.test(text));
    if (numbers && positionals.length === 1) {
      return {limits: Object.fromEntries(Object.entries(limits).map(([name, text]) => [name, Number(text)])), sites, name: positionals[0]};
    }
  } catch {
    // An option that isn't known, or has no value.
  }
  return leave(124, USAGE);
}

function bytesOf(name) {
  try {
    return fs.readFileSync(name);
  } catch {
    return leave(123, 'store fault');
  }
}

// The sites of the faults in a file that `sather build --sites` wrote.
function sitesOf(name, areSites) {
  try {
    const sites = JSON.parse(bytesOf(name));
    if (areSites(sites)) return sites;
  } catch {
    // A file that is no JSON.
  }
  return leave(123, 'store fault');
}

// Writes bytes. A pipe that takes none for now is asked again.
async function write(bytes) {
  let from = 0;
  while (from < bytes.length) {
    try {
      from += await writeSome(1, bytes, from, bytes.length - from);
    } catch (error) {
      if (error.code !== 'EAGAIN') throw error;
      await wait(AGAIN);
    }
  }
}

// The input. It is touched when some of it is asked for, and not before. What is no stream is read as a file, so that a folder is a
// fault and no end.
async function* input() {
  const kind = fs.fstatSync(0);
  yield* kind.isFIFO() || kind.isSocket() || tty.isatty(0) ? process.stdin : fs.createReadStream('', {fd: 0, autoClose: false});
}

// At a signal what was put out is written, and then the process ends by the signal, at once if it comes again.
function endBySignals(run) {
  const end = async (signal) => {
    for (const one of SIGNALS) process.removeAllListeners(one);
    await Promise.race([run.stop(), wait(LAST)]);
    process.kill(process.pid, signal);
  };
  for (const signal of SIGNALS) process.on(signal, end);
}

async function main(words) {
  const {name, limits, sites: file} = command(words);
  const {Program, areSites} = await import('./sather-host.mjs');
  const program = new Program(bytesOf(name), {name, sites: file === undefined ? [] : sitesOf(file, areSites)});
  const output = limits.output === undefined ? Infinity : limits.output * KIB;
  const run = program.start({...limits, output, input: input(), write, lines: tty.isatty(1)});
  endBySignals(run);
  const {status, line} = await run.ended;
  // A run that a signal has stopped ends by the signal.
  if (line !== 'stopped') leave(status, line);
}

main(process.argv.slice(2)).catch(() => leave(70, 'internal error'));
