/** A position in a source, as `sather build --sites` writes it: the file, or `prelude`, and the line, from 1. */
export interface Site {
  file: string;
  line: number;
}

/** The fault that a program has stopped with: the numbers of `env.stop`, the text of the code, and where it was if the sites have it. */
export interface Fault extends Partial<Site> {
  code: number;
  site: number;
  text?: string;
}

/** What a run has left: the status and the line of `sather exec`, the bytes that no `write` has taken, and the fault if there was one. */
export interface Result {
  status: number;
  line: string;
  output: Uint8Array;
  fault?: Fault;
}

export interface Options {
  /** What the program reads: a text, bytes, or pieces of bytes that are asked for when the program reads. Nothing without it. */
  input?: string | Uint8Array | AsyncIterable<Uint8Array> | Iterable<Uint8Array>;
  /** Takes output as it comes; the program goes on when the promise is kept. One that fails is the line `output fault`. */
  write?: (bytes: Uint8Array) => void | Promise<void>;
  /** Whether output is written at each line feed, and not when 65,536 bytes are there, before a read and at the end alone. */
  lines?: boolean;
  /** Seconds after which the run is ended: status 122, `time spent`. */
  seconds?: number;
  /** MiB of stack for calls; 1024 without it. */
  stack?: number;
  /** MiB of memory that the module may have: a module that begins with more has status 125, `out of memory`. */
  memory?: number;
  /** Bytes of output, after which the run is ended: status 122, `output spent`. */
  output?: number;
}

/** A run of a program. */
export interface Run {
  /** The result, once the run has ended. It never fails. */
  readonly ended: Promise<Result>;
  /** Ends the run: status 122, `stopped`. What was put out before is written first. */
  stop(): Promise<Result>;
}

/** The texts of the faults, by the codes of `env.stop`. */
export const FAULTS: readonly string[];

/** Whether a value is what `sather build --sites` writes. */
export function areSites(value: unknown): value is Site[];

/** A module that `sather build` wrote, or another's that keeps to the page docs/WEBASSEMBLY.md. It may be run many times, also at once. */
export class Program {
  constructor(bytes: Uint8Array, about?: { name?: string; sites?: Site[] });
  readonly bytes: Uint8Array;
  readonly name: string;
  readonly sites: Site[];
  start(options?: Options): Run;
  run(options?: Options): Promise<Result>;
}
