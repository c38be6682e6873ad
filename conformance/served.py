#!/usr/bin/env python3
"""served.py PROGRAM [--only WORD]

Tries the server of the page, hosts/web/serve, without a browser: what is no source is refused in one piece, what it has started ends with
it, and Python is asked for its version, as by ./test. --only takes the tries whose names hold a word."""
import contextlib
import functools
import http.client
import json
import os
import re
import shutil
import signal
import subprocess
import sys
import tempfile
import threading
import time

import report

SERVE = os.path.join(report.TOP, 'hosts', 'web', 'serve')
ENDLESS = 'class MAIN is main is loop end; end; end;'
WITHIN = 60         # seconds that a start or an end may take on a busy machine
OLD = ('python3.8', 'python3.7', 'python3.6')


@contextlib.contextmanager
def serving(program):
    """A server, its port and the folder in which it makes its own."""
    with tempfile.TemporaryDirectory() as folder:
        words = [sys.executable, SERVE, '--port', '0', program]
        with subprocess.Popen(words, stdout=subprocess.PIPE, stderr=subprocess.PIPE, env={**os.environ, 'TMPDIR': folder}) as server:
            try:
                yield server, int(re.search(rb':(\d+)/', server.stdout.readline()).group(1)), folder
            finally:
                server.kill()


def post(port, path, body):
    """The status of a request, or None where the server ends before it answers."""
    with contextlib.suppress(OSError, http.client.HTTPException):
        connection = http.client.HTTPConnection('127.0.0.1', port, timeout=WITHIN)
        with contextlib.closing(connection):
            connection.request('POST', path, body, {'Content-Type': 'application/json'})
            return connection.getresponse().status
    return None


def nested_is_refused(program):
    """That a text of JSON which nests too deeply is answered, and tells nothing on err."""
    with serving(program) as (server, port, _):
        statuses = [post(port, '/build', text) for text in (b'[' * 100_000, b'{"source":' * 100_000, b'[' * 100_000 + b']' * 100_000)]
        server.terminate()
        lines = server.stderr.read()
        return None if (statuses, lines) == ([400] * 3, b'') else 'came the statuses %s and %r' % (statuses, lines)


def runs_of(program, folder):
    """The processes that run the program below a folder."""
    found = []
    for name in filter(str.isdigit, os.listdir('/proc')):
        with contextlib.suppress(OSError):
            if os.path.realpath('/proc/%s/cwd' % name).startswith(folder) and os.path.realpath('/proc/%s/exe' % name) == program:
                found.append(int(name))
    return found


def wait_for(holds):
    """What something gives, once it gives what holds or the time is over."""
    late = time.monotonic() + WITHIN
    while not (given := holds()) and time.monotonic() < late:
        time.sleep(0.1)
    return given


def limit_of(process):
    """The seconds of a processor that the system lets a process take, or None where it is gone."""
    with contextlib.suppress(OSError), open('/proc/%d/limits' % process, encoding='utf-8') as file:
        return re.search(r'^Max cpu time +(\w+)', file.read(), re.M).group(1)
    return None


def ask_again(server, port, path):
    """Has an endless program run again and again, since each is ended after some seconds."""
    while server.poll() is None:
        post(port, path, json.dumps({'source': ENDLESS}))


def ends_with_it(program, number, path):
    """That a run which has no end is gone with the server that a signal ends, and its folder too."""
    program = os.path.realpath(program)
    with serving(program) as (server, port, folder):
        folder = os.path.realpath(folder)
        asking = threading.Thread(target=ask_again, args=(server, port, path), daemon=True)
        asking.start()
        limit = wait_for(lambda: next(filter(None, map(limit_of, runs_of(program, folder))), None))
        if limit is None:
            return 'the program wasn\'t run'
        server.send_signal(number)
        status = server.wait(WITHIN)
        left, lines = os.listdir(folder), server.stderr.read()
        is_gone = wait_for(lambda: not runs_of(program, folder))
        asking.join(WITHIN)
        told = []
        if limit != '10':
            told.append('the system doesn\'t bound its time: %s' % limit)
        if not is_gone:
            told.append('it runs on')
        if left:
            told.append('its folder stays: %s' % left)
        if lines or status not in (0, 128 + number):
            told.append('the server ended with status %d and %r' % (status, lines))
        return '; '.join(told) or None


def version_is_asked(script):
    """That a Python which is too old is told so in a line, where one is here that runs."""
    for name in filter(shutil.which, OLD):
        if report.run([name, '-c', ''], report.TOP).status == 0:
            left = report.run([name, script, '--help'], report.TOP)
            what = os.path.basename(script)
            wanted = r'%s: this needs Python 3\.9 or later, and runs by [0-9.]+\n' % what
            if left.status != 1 or not re.fullmatch(wanted, left.lines.decode()):
                return '%s: %s left %r' % (what, name, left.lines)
    return None


TRIES = [
    ('what nests too deeply is refused', nested_is_refused),
    *(('a run ends with the server at SIG%s, %s' % (name, path), functools.partial(
        ends_with_it, number=getattr(signal, 'SIG' + name), path=path)) for name in ('TERM', 'HUP', 'INT') for path in ('/run', '/trace')),
    ('the server asks for the version of Python', lambda _: version_is_asked(SERVE)),
    ('./test asks for the version of Python', lambda _: version_is_asked(os.path.join(report.TOP, 'test'))),
]


def try_all(program, told, word=''):
    """Tries what has a name that holds the word."""
    chosen = [(name, wrong) for name, wrong in TRIES if word in name]
    told.part('the server of the page', len(chosen))
    for name, wrong in chosen:
        told.count(name, wrong(program))


if __name__ == '__main__':
    sys.exit(report.of_script(__doc__, try_all))
