"""Programs that are kept started. The library keeping.c stands before their main function: what a start does is done once, and each
call is answered by a copy of the process. A script, or where cc or Linux is missing any program, is started for each call."""
import contextlib
import os
import resource
import select
import shutil
import struct
import subprocess
import tempfile

from report import Left

SOURCE = os.path.join(os.path.dirname(os.path.abspath(__file__)), 'keeping.c')
REQUEST, ANSWER = struct.Struct('=II'), struct.Struct('=i')
QUICK = '/dev/shm'      # a folder in memory, on Linux


@contextlib.contextmanager
def folders():
    """A folder in memory, where the system has one for all, and the path of the library, built by cc, or None where it can't be
    used. They are there as long as the work takes."""
    in_memory = QUICK if os.access(QUICK, os.W_OK) else None
    with tempfile.TemporaryDirectory(dir=in_memory) as quick, tempfile.TemporaryDirectory() as folder:
        yield quick, library(folder)


def library(folder):
    """The path of the library, which is built in this folder, or None. Programs can't always be loaded from a folder in memory."""
    if shutil.which('cc') is None or not hasattr(os, 'memfd_create') or not hasattr(resource, 'prlimit'):
        return None
    path = os.path.join(folder, 'keeping.so')
    subprocess.run(['cc', '-shared', '-fPIC', '-O2', '-o', path, SOURCE], check=True)
    return path


class Limits:
    """The most that a call may take: seconds of a processor, bytes of addresses (0 for no limit), and seconds by the clock."""

    def __init__(self, seconds, memory, patience):
        self.seconds, self.memory, self.patience = seconds, memory, patience

    def late(self, words):
        return subprocess.TimeoutExpired(words, self.patience)


class Started:
    """A program that is started for each call, in a folder."""

    def __init__(self, program, folder, limits):
        self.program, self.folder, self.limits = program, folder, limits

    def call(self, words, given=b''):
        """What the program leaves for these words and this input."""
        command = [self.program, *words]
        with subprocess.Popen(command, cwd=self.folder, stdin=subprocess.PIPE, stdout=subprocess.PIPE, stderr=subprocess.PIPE) as process:
            self.limit(process.pid)
            try:
                output, lines = process.communicate(given, self.limits.patience)
            except subprocess.TimeoutExpired:
                process.kill()
                raise
        return Left(output, lines, process.returncode)

    def limit(self, process):
        """Limits the process from outside: between its start and its program a limit would cost more than most runs take."""
        if hasattr(resource, 'prlimit'):
            resource.prlimit(process, resource.RLIMIT_CPU, (self.limits.seconds, self.limits.seconds + 2))
            if self.limits.memory:
                resource.prlimit(process, resource.RLIMIT_AS, (self.limits.memory, self.limits.memory))


class Kept:
    """A program that is kept started by the library at a path, in a folder. It is started at its first call, and anew behind one
    that took too long."""

    def __init__(self, program, folder, limits, path):
        self.program, self.folder, self.limits, self.path = program, folder, limits, path
        self.process = None

    def begin(self):
        """Starts the program, which then waits for requests."""
        requests, self.requests = os.pipe()
        self.answers, answers = os.pipe()
        self.input, self.out, self.err = self.streams = [os.memfd_create(name) for name in ('input', 'out', 'err')]
        self.given = b''
        numbers = [requests, answers, *self.streams, self.limits.seconds, self.limits.memory]
        environment = {**os.environ, 'LD_PRELOAD': self.path, 'LD_BIND_NOW': '1', 'KEEP': ' '.join(map(str, numbers))}
        self.process = subprocess.Popen([self.program], cwd=self.folder, env=environment, pass_fds=[requests, answers, *self.streams],
                                        stdin=subprocess.DEVNULL, stdout=subprocess.DEVNULL, stderr=subprocess.DEVNULL)
        os.close(requests)
        os.close(answers)

    def end(self):
        """Ends the process and the copy that it may be waiting for."""
        if self.process is not None:
            self.process.kill()
            self.process.wait()
            for file in (self.requests, self.answers, *self.streams):
                os.close(file)
            self.process = None

    def call(self, words, given=b''):
        """What the program leaves for these words and this input."""
        if self.process is None:
            self.begin()
        self.prepare(given)
        spelled = b''.join(word.encode() + b'\0' for word in (self.program, *words))
        os.write(self.requests, REQUEST.pack(len(words) + 1, len(spelled)) + spelled)
        status = self.answer(words)
        return Left(self.written(self.out), self.written(self.err), status)

    def answers_calls(self):
        """Whether the library keeps this program: it has to be linked dynamically, and the library to be let in."""
        try:
            self.call([])
        except (RuntimeError, BrokenPipeError):
            self.end()
            return False
        return True

    def prepare(self, given):
        """Makes the streams those of a new call."""
        if self.given != given:
            os.ftruncate(self.input, 0)
            os.pwrite(self.input, given, 0)
            self.given = given
        os.ftruncate(self.out, 0)
        os.ftruncate(self.err, 0)

    def answer(self, words):
        """The status with which the copy has ended, or less than zero the signal."""
        if not select.select([self.answers], [], [], self.limits.patience)[0]:
            self.end()
            raise self.limits.late(words)
        answered = os.read(self.answers, ANSWER.size)
        if len(answered) < ANSWER.size:
            self.end()
            raise RuntimeError('the process that keeps %s has ended' % self.program)
        return ANSWER.unpack(answered)[0]

    def written(self, file):
        """What the copy has written into a file."""
        size = os.fstat(file).st_size
        return os.pread(file, size, 0) if size else b''


def is_script(path):
    """Whether the program at a path is a script: what could be kept started of it is its interpreter, with other words."""
    with open(path, 'rb') as file:
        return file.read(2) == b'#!'


def program(path, folder, limits, library_path):
    """The program at a path, kept started where that can be."""
    path = shutil.which(path) or path
    if library_path is not None and not is_script(path):
        one = Kept(path, folder, limits, library_path)
        if one.answers_calls():
            return one
    return Started(path, folder, limits)
