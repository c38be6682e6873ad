#!/usr/bin/env python3
"""waiting.py PROGRAM [--only WORD]

Runs the recipe of docs/SANDBOX.md for a host that waits, as it stands there: the commands make a module that may wait, by PROGRAM and
binaryen's wasm-opt, and the function of the page runs it in node, with an input whose bytes come late. What is wanted is what PROGRAM
leaves of the source with the same input. --only takes the tries whose names hold a word."""
import json
import os
import re
import shutil
import sys

import judges
import report
from report import Left

COPY = b'class MAIN is main is loop b ::= #IN.get_byte; while!(b >= 0); #OUT + b.char; end; end; end;'
# Reads in an iter that other iters and calls wait for.
NESTED = b'''class MAIN is
    byte!:INT is loop b ::= #IN.get_byte; while!(b >= 0); yield b; end; end;
    pair!:INT is loop a ::= byte!; yield a; yield a + 1; end; end;
    sum(n:INT):INT is if n > 0 then return sum(n - 1) + 1; end; loop s ::= pair!; #OUT + s + " "; end; return 0; end;
    main:INT is return sum(20); end;
end;'''
FULL = b'class MAIN is main is l ::= #FLIST{INT}; i ::= 0; loop l.push(i); i := i + 1; if i % 1000 = 0 then #OUT + i + " "; end; end; end; end;'
SCRIPT = b'''import fs from 'node:fs';
import {runWaiting} from './page.mjs';
const input = fs.readFileSync('in');
let at = 0;
const read = () => new Promise((resolve) => { setImmediate(resolve, at < input.length ? input[at++] : -1); });
const bytes = [];
const stop = (code) => { throw new Error(`${code}`); };
let end;
try {
  end = await runWaiting(fs.readFileSync('waits.wasm'), {read, put: (byte) => { bytes.push(byte & 255); }, stop});
} catch (error) {
  end = `stop ${error.message}`;
}
console.log(JSON.stringify({end, output: Buffer.from(bytes).toString('latin1')}));
'''
TRIES = [('each byte goes through', COPY, bytes(range(256))), ('a read inside of iters and calls', NESTED, b'abc'),
         ('the room is as it was', FULL, b'')]


def recipe():
    """The commands and the function of the page."""
    page = report.text_of('docs', 'SANDBOX.md')
    part = page[page.index('## A host that waits'):]
    return tuple(re.search(r'^```%s\n(.*?)^```' % kind, part, re.M | re.S).group(1) for kind in ('sh', 'js'))


def differs(program, source, given):
    """What a program that waits leaves otherwise than it should, or None."""
    commands, function = recipe()
    files = {'mine.sa': source, 'in': given, 'page.mjs': function.encode(), 'run.mjs': SCRIPT}
    with report.folder_with(files) as folder:
        words = ['run', '--room', '64', 'mine.sa'] if source == FULL else ['run', 'mine.sa']
        wanted = report.run([program, *words], folder, input=given)
        os.symlink(program, os.path.join(folder, 'sather'))
        path = '%s:%s' % (folder, os.environ['PATH'])
        commands = commands.replace('sather build', 'sather build --room 64') if source == FULL else commands
        made = report.run(['sh', '-ec', commands], folder, env={**os.environ, 'PATH': path})
        if made != Left():
            return 'the commands left %r' % made
        ran = report.run(['node', 'run.mjs'], folder)
        if ran.status != 0:
            return 'the script left %r' % ran.lines
        found = json.loads(ran.output)
        end = wanted.status if wanted.status != 121 else 'stop 9'
        return report.difference(Left(wanted.output), Left(found['output'].encode('latin1'))) \
            or (None if found['end'] == end else 'expected the end %s, and came %s' % (end, found['end']))


def try_all(program, told, word=''):
    """Tries what has a name that holds the word."""
    if not judges.has_node() or not shutil.which('wasm-opt'):
        return told.lacks('node or wasm-opt of binaryen', 'no module that waits was made')
    chosen = [one for one in TRIES if word in one[0]]
    told.part('a host that waits', len(chosen))
    for name, source, given in chosen:
        told.count(name, differs(program, source, given))
    return None


if __name__ == '__main__':
    sys.exit(report.of_script(__doc__, try_all))
