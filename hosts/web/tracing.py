"""Runs a source with its trace, and parts what it puts into its output and its lines on err, in the order in which it puts them.

Out and err are one pipe, which keeps the order. The source lies in a file whose name the program can't know, so that what has this name
in it is a line of the trace, and no output that looks like one."""
from __future__ import annotations

import contextlib
import dataclasses
import itertools
import os
import re
import secrets
import signal
import subprocess
import tempfile
import threading

RUNNING = set()     # the processes that were started here and haven't ended
ENDING = threading.Event()
CHANGING = threading.Lock()

PIECE = 1 << 16     # bytes that are read at once
LINE = rb'((?:start|resume|yield|quit|abandon) (?:%b|prelude):\d+ \d+\n|(?:(?:%b|prelude):\d+[^\n]*|%b)\n\Z)'
ENDS = {122: b'fuel spent', 125: b'out of memory'}      # the lines without a place that a run ends with, by their status


@contextlib.contextmanager
def started(words, **how):
    """A process that is ended with this block, and by `end_all`. It is a group of its own, so that what it starts ends with it."""
    with CHANGING:
        if ENDING.is_set():
            raise ConnectionAbortedError('the server ends')
        process = subprocess.Popen(words, start_new_session=True, **how)
        RUNNING.add(process)
    try:
        yield process
    finally:
        end(process)
        for stream in (process.stdin, process.stdout, process.stderr):
            if stream:
                stream.close()
        process.wait()
        with CHANGING:
            RUNNING.discard(process)


def end(process):
    """Ends a process and what it has started."""
    with contextlib.suppress(ProcessLookupError):
        if process.returncode is None:
            os.killpg(process.pid, signal.SIGKILL)


def end_all():
    """Ends what was started, and has nothing be started any more."""
    with CHANGING:
        ENDING.set()
        for process in RUNNING:
            end(process)


@dataclasses.dataclass
class Traced:
    """What a traced run has left: its output, its lines on err, of each how many bytes of output stand before it, and the status, or
    None where the run was ended from here."""
    output: bytes
    lines: bytes
    shown: list
    status: int | None


@dataclasses.dataclass
class Most:
    """The most that is kept of a run, and the most seconds that it may take."""
    lines: int
    output: int
    seconds: int


def put_by(run, name, most):
    """What a run puts, and whether it is more than is kept."""
    text, lines = bytearray(), 0
    while piece := run.stdout.read1(PIECE):
        text += piece
        lines += piece.count(name)
        if lines > most.lines or len(text) > most.output:
            return bytes(text), True
    return bytes(text), False


def parted(text, status, hidden, name, most):
    """The output, the lines, and how much of the output stands before each. The lines have the name that isn't hidden."""
    pieces = re.split(LINE % (hidden, hidden, ENDS.get(status, b'(?!)')), text)[:2 * most.lines + 1]
    shown = list(itertools.accumulate(map(len, pieces[0::2])))
    lines = b''.join(pieces[1::2]).replace(hidden, name.encode())
    return b''.join(pieces[0::2]), lines, shown[:len(pieces) // 2]


def traced(words, name, source, given, most):
    """What a source leaves with an input where it is run by these words and the name of its file. Its lines call it by the given
    name."""
    hidden = secrets.token_hex(8) + '.sa'
    with tempfile.TemporaryDirectory() as folder:
        for file_name, text in ((hidden, source), ('input', given)):
            with open(os.path.join(folder, file_name), 'wb') as file:
                file.write(text)
        with open(os.path.join(folder, 'input'), 'rb') as put_in, \
                started([*words, hidden], cwd=folder, stdin=put_in, stdout=subprocess.PIPE, stderr=subprocess.STDOUT) as run:
            clock = threading.Timer(most.seconds, end, [run])
            clock.start()
            text, is_cut = put_by(run, hidden.encode(), most)
            if is_cut:
                end(run)
            run.wait()
            clock.cancel()
    status = None if is_cut or run.returncode < 0 else run.returncode
    return Traced(*parted(text, status, hidden.encode(), name, most), status)
