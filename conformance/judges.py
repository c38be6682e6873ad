"""Runs a module in the program that is tried, in V8 and in wabt, and says alike how each run ended.

An end is one of the words 'malformed', 'invalid', 'unlinked N', 'segment', 'trap', 'too deep', 'spent', 'stop CODE at SITE'
and 'done STATUS'."""
import functools
import json
import os
import re
import resource
import select
import shutil
import subprocess
import time

HERE = os.path.dirname(os.path.abspath(__file__))
SECONDS = 60
V8_SECONDS = 60     # of a processor that a process of V8 may take for all its modules
BUSY = 20           # how many times longer than its seconds of a processor a process may take on a busy machine
OWN_LINE = re.compile(rb'm: (malformed|invalid|unlinked \d+|segment|trap|too deep)\n')
STOPPED = re.compile(rb'm: (stop \d+ at \d+)\n')
STATS = re.compile(rb'steps (\d+), bytes (\d+)\n$')
CALLED = re.compile(r'called host env\.(\w+)\((?:i32:(\d+))?')
# What WebAssembly 1.0 doesn't have.
WABT_FEATURES = ['--disable-saturating-float-to-int', '--disable-sign-extension', '--disable-simd', '--disable-multi-value',
                 '--disable-bulk-memory', '--disable-reference-types']


class Run:
    """How a run ended and what it wrote, with its steps where they were counted."""

    def __init__(self, end, output=b'', steps=None):
        self.end, self.output, self.steps = end, output, steps

    def __eq__(self, other):
        return (self.end, self.output) == (other.end, other.output)

    def __str__(self):
        steps = '' if self.steps is None else ' after %d steps' % self.steps
        return '%s%s, output %r' % (self.end, steps, self.output)


def end_of(line, status):
    """The end that a line on err and a status tell, or a text that is no end where they don't fit together."""
    own, stopped = OWN_LINE.fullmatch(line), STOPPED.fullmatch(line)
    if line == b'':
        return 'done %d' % status
    if line == b'fuel spent\n' and status == 122:
        return 'spent'
    if own and status == 126:
        return own.group(1).decode()
    if stopped and status == 121:
        return stopped.group(1).decode()
    return 'status %d with %r' % (status, line)


def sather(program, folder, module, given=b'', words=()):
    """Runs the module by `exec`."""
    with open(os.path.join(folder, 'm'), 'wb') as file:
        file.write(module)
    try:
        ended = subprocess.run([program, 'exec', *words, 'm'], cwd=folder, input=given, capture_output=True, timeout=SECONDS)
    except subprocess.TimeoutExpired:
        return Run('no end within %d seconds' % SECONDS)
    line, steps = ended.stderr, None
    stats = STATS.search(line)
    if stats:
        line, steps = line[:stats.start()], int(stats.group(1))
        if int(stats.group(2)) != len(module):
            return Run('another length of the module: %r' % stats.group(0), ended.stdout)
    return Run(end_of(line, ended.returncode), ended.stdout, steps)


def explained(program, folder):
    """What `exec --explain` tells of the module that was run last."""
    return subprocess.run([program, 'exec', '--explain', 'm'], cwd=folder, input=b'', capture_output=True, timeout=SECONDS).stderr


@functools.cache
def has_node():
    """Whether V8 is there."""
    return shutil.which('node') is not None


def tell_missing(told):
    """Notes in a report which of the tools are missing."""
    if not has_node():
        told.lacks('node', 'nothing was compared with V8')
    if not has_wabt():
        told.lacks('wabt (wasm-validate, wasm-interp)', 'nothing was compared with it')


def node(script, tasks, stack=None):
    """What a script of this folder, run by node, says of each task, as JSON, or None where node is missing. It has so many bytes of
    stack where they are given, and a minute of a processor and a second more for each task."""
    if not has_node():
        return None
    words = ['node', os.path.join(HERE, script)]
    if stack is not None:
        words.insert(1, '--stack-size=%d' % (stack_within(stack) // 1024))
    ended = subprocess.run(words, input='\n'.join(map(json.dumps, tasks)) + '\n', capture_output=True, text=True,
                           timeout=BUSY * (SECONDS + len(tasks)), preexec_fn=functools.partial(limited, SECONDS + len(tasks), stack))
    answers = [json.loads(line) for line in ended.stdout.splitlines()]
    if len(answers) != len(tasks):
        raise RuntimeError('node answered %d of %d tasks: %s' % (len(answers), len(tasks), ended.stderr))
    return answers


def v8(tasks, stack=None):
    """Judges modules by one process of node, with so many bytes of stack where they are given. A task is a module, an input,
    and whether to run it. Gives for each whether it is valid, and its run or None; or None for all where node is missing."""
    answers = node('v8.js', [asked_of_v8(*task) for task in tasks], stack)
    return answers and [answer_of_v8(answer) for answer in answers]


def asked_of_v8(module, given, run):
    """What the script asks for: a module, an input, and whether to run it."""
    return {'module': module.hex(), 'input': given.hex(), 'run': run}


def answer_of_v8(answer):
    """Whether a module is valid, and its run or None, by an answer of the script."""
    return answer['valid'], Run(answer['end'], bytes.fromhex(answer['output'])) if 'end' in answer else None


class V8:
    """V8, asked of one module after the other, with so many bytes of stack, for so many seconds by the clock each. Its process stays
    as long as it answers and has seconds of a processor left: to start one takes longer than to judge a hundred modules."""

    def __init__(self, stack, patience):
        self.stack, self.patience, self.process, self.judged = stack, patience, None, 0

    def ask(self, module, given, run):
        """Whether a module is valid, and its run or None. What goes wrong is no answer of a process that has judged others before
        it: a new one is asked then. None where that gives no answer either."""
        for _ in range(1 if self.judged == 0 else 2):
            try:
                return answer_of_v8(json.loads(self.line(json.dumps(asked_of_v8(module, given, run)))))
            except (OSError, ValueError, subprocess.TimeoutExpired):
                self.end()
        return None

    def line(self, task):
        """The line that the process writes for a line."""
        if self.process is None:
            self.begin()
        self.judged += 1
        self.process.stdin.write(task.encode() + b'\n')
        self.process.stdin.flush()
        line, late = b'', time.monotonic() + self.patience
        while not line.endswith(b'\n'):
            if not select.select([self.process.stdout], [], [], max(late - time.monotonic(), 0))[0]:
                raise subprocess.TimeoutExpired('node', self.patience)
            more = os.read(self.process.stdout.fileno(), 1 << 16)
            if not more:
                raise ValueError('node has ended')
            line += more
        return line

    def begin(self):
        """Starts a process."""
        words = ['node', '--expose-gc', '--stack-size=%d' % (stack_within(self.stack) // 1024), os.path.join(HERE, 'v8.js')]
        self.process = subprocess.Popen(words, stdin=subprocess.PIPE, stdout=subprocess.PIPE, stderr=subprocess.DEVNULL, bufsize=0,
                                        preexec_fn=functools.partial(limited, V8_SECONDS, self.stack))
        self.judged = 0

    def end(self):
        """Ends the process."""
        if self.process is not None:
            self.process.kill()
            self.process.communicate()
        self.process, self.judged = None, 0


def stack_within(stack):
    """So many bytes of stack, or as many of them as the system lets a process have."""
    _, most = resource.getrlimit(resource.RLIMIT_STACK)
    return stack if most == resource.RLIM_INFINITY else min(stack, most * 3 // 4)


def limited(seconds, stack):
    """Lets the process have so many seconds of a processor, and as large a stack as the system allows, where one is given."""
    resource.setrlimit(resource.RLIMIT_CPU, (seconds, seconds + 5))
    if stack is not None:
        _, most = resource.getrlimit(resource.RLIMIT_STACK)
        resource.setrlimit(resource.RLIMIT_STACK, (most, most))


@functools.cache
def has_wabt():
    """Whether wabt is there."""
    return shutil.which('wasm-validate') is not None and shutil.which('wasm-interp') is not None


def wabt_accepts(folder):
    """Whether wabt finds the module `m` valid without the features that came after 1.0."""
    ended = subprocess.run(['wasm-validate', *WABT_FEATURES, 'm'], cwd=folder, capture_output=True, timeout=SECONDS)
    return ended.returncode == 0


def wabt_run(folder):
    """Runs the module `m` by wabt's interpreter, which has no host: it prints each call of an import, and gives zeros. Gives
    None where the run read input or was to stop, since wabt then goes another way."""
    ended = subprocess.run(['wasm-interp', *WABT_FEATURES, '--dummy-import-func', '--run-all-exports', 'm'], cwd=folder,
                           capture_output=True, text=True, timeout=SECONDS)
    output = bytearray()
    for called in CALLED.finditer(ended.stdout):
        if called.group(1) != 'put':
            return None
        output.append(int(called.group(2)) & 255)
    last = ended.stdout.splitlines()[-1] if ended.stdout else ended.stderr
    done = re.fullmatch(r'main\(\) =>(?: i32:(\d+))?', last)
    if done:
        return Run('done %d' % (int(done.group(1) or 0) & 255), bytes(output))
    return Run('too deep' if 'call stack exhausted' in last else 'trap', bytes(output))
