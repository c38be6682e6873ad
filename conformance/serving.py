"""Tries of the server of hosts/web that need no browser: what it answers, what it refuses, and whom it answers."""
import contextlib
import http.client
import os
import socket
import subprocess
import sys
from urllib.parse import urlsplit

import report

WEB = os.path.realpath(os.path.join(os.path.dirname(os.path.abspath(__file__)), '..', 'hosts', 'web'))


@contextlib.contextmanager
def served(program, *options):
    """The address of the page, which is served meanwhile."""
    words = [sys.executable, os.path.join(WEB, 'serve'), '--port', '0', *options, program]
    with subprocess.Popen(words, stdout=subprocess.PIPE, text=True) as server:
        try:
            yield server.stdout.readline().strip()
        finally:
            server.terminate()


def status_of(address, method, path, body=b'', **headers):
    """The status that the server answers a request with."""
    connection = http.client.HTTPConnection(urlsplit(address).netloc, timeout=report.SECONDS)
    with contextlib.closing(connection):
        connection.request(method, path, body, {name.replace('_', '-'): value for name, value in headers.items()})
        return connection.getresponse().status


JSON = {'Content_Type': 'application/json'}
OUTSIDE_NAME = 'other machines don\'t reach the server'
# A name, the request, and the status of the answer.
REQUESTS = [
    ('the page is served', ('GET', '/'), {}, 200),
    ('what is no file of the page isn\'t served', ('GET', '/serve'), {}, 404),
    ('a name that leads out of the folder is no page', ('GET', '/../../README.md'), {}, 404),
    ('a request that names another host is refused', ('GET', '/'), {'Host': 'example.org'}, 404),
    ('another page can\'t have sources compiled', ('POST', '/build', b'{"source": ""}'), {**JSON, 'Origin': 'http://example.org'}, 403),
    ('a form of another page can\'t either', ('POST', '/build', b'{"source": ""}'), {'Content_Type': 'text/plain'}, 403),
    ('what is no source is refused', ('POST', '/build', b'[]'), JSON, 400),
    ('a source that is refused has no module', ('POST', '/build', b'{"source": ""}'), JSON, 422),
    ('a request that is too long isn\'t read', ('POST', '/build', b' ' * 3_000_000), JSON, 413),
]


def try_all(program, address, told, word):
    """Tries the server at an address, and another one that is bound wider, as far as the names hold the word."""
    for name, request, headers, wanted in REQUESTS:
        if word in name:
            try:
                came = status_of(address, *request, **headers)
            except (ConnectionResetError, BrokenPipeError):
                came = 413      # the server has answered and gone before all was sent
            told.count(name, None if came == wanted else 'expected the status %d, and came %d' % (wanted, came))
    if word in OUTSIDE_NAME:
        told.count(OUTSIDE_NAME, reached_from_outside(urlsplit(address).port))
    if word in BOUND_NAME:
        told.count(BOUND_NAME, answers_wider(program))


BOUND_NAME = 'a server that is bound wider answers to the addresses and names of this machine alone'


def answers_wider(program):
    """What is wrong with a server that is bound to each address of this machine, or None."""
    with served(program, '--bind', '0.0.0.0') as address:
        port = urlsplit(address).port
        near, wanted = 'http://127.0.0.1:%d' % port, []
        names = [('127.0.0.1:%d' % port, 200), ('%s:%d' % (socket.gethostname().lower(), port), 200), ('example.org:%d' % port, 404),
                 ('127.0.0.1.example.org:%d' % port, 404), ('127.0.0.1:%d' % (port - 1), 404)]
        for name, status in names:
            came = status_of(near, 'GET', '/', Host=name)
            if came != status:
                wanted.append('for %s expected the status %d, and came %d' % (name, status, came))
        own = outside_address(port)
        if own and status_of('http://%s:%d' % (own, port), 'GET', '/') != 200:
            wanted.append('it isn\'t reached by %s' % own)
    return '; '.join(wanted) or None


def outside_address(port):
    """An address of this machine but that of the loop, or None."""
    with contextlib.suppress(OSError):
        for _, _, _, _, (host, *_) in socket.getaddrinfo(socket.gethostname(), port, socket.AF_INET, socket.SOCK_STREAM):
            if not host.startswith('127.'):
                return host
    return None


def reached_from_outside(port):
    """Which address of this machine but that of the loop reaches the server, or None."""
    host = outside_address(port)
    with contextlib.suppress(OSError):
        if host:
            with socket.create_connection((host, port), 2):
                return 'it is reached by %s' % host
    return None
