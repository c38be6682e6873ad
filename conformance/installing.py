#!/usr/bin/env python3
"""installing.py [--only WORD]

Tries ./install where something is in its way: links, files of others, files that were changed, folders that can't be made, a disk that is
full; and DESTDIR, an earlier installation, the hosts that it puts, and the sum of the program that ships.

Whatever comes, what was there before is as it was, and what was put is gone after `install --remove`. --only takes the tries whose
names hold a word."""
import argparse
import contextlib
import functools
import hashlib
import os
import re
import shutil
import subprocess
import sys
import tempfile

import judges
import report
from report import Left

INSTALL = os.path.join(report.TOP, 'install')
SHIPPED = 'bin/sather-x86_64-linux'
HELLO = b'class MAIN is main is #OUT + "Hello\\n"; end; end;'
LARGE = b'class MAIN is main is loop 200000.times!; #OUT + "0123456789"; end; end; end;'
OWN = b'mine\n'


def install(folder, *words, top=report.TOP, **more):
    """What ./install leaves with these words, in a folder."""
    return report.run([os.path.join(top, 'install'), *words], folder, env={**os.environ, **more})


def state_of(folder):
    """What stands below a folder: of each name the text of its file, where its link leads, or that it is a folder."""
    found = {}
    for place, folders, files in os.walk(folder):
        for name in [*folders, *files]:
            path = os.path.join(place, name)
            if os.path.islink(path):
                found[os.path.relpath(path, folder)] = 'to ' + os.readlink(path)
            elif os.path.isdir(path):
                found[os.path.relpath(path, folder)] = 'a folder'
            else:
                with open(path, 'rb') as file:
                    found[os.path.relpath(path, folder)] = hashlib.sha256(file.read()).hexdigest()
    return found


def differing(before, after):
    """Which names of two states differ, or None."""
    names = sorted(name for name in before.keys() | after.keys() if before.get(name) != after.get(name))
    return 'other than before: %s' % ', '.join(names[:9]) if names else None


def write(path, text=OWN):
    """Makes a file with the folders around it."""
    os.makedirs(os.path.dirname(path), exist_ok=True)
    with open(path, 'wb') as file:
        file.write(text)


def refuses(prepare):
    """That ./install refuses what was prepared, and that all is as it was."""
    with tempfile.TemporaryDirectory() as folder:
        prepare(folder)
        before = state_of(folder)
        left = install(folder, 'to')
        if left.status != 1 or not left.lines.startswith(b'install: '):
            return 'install left %r' % left
        return differing(before, state_of(folder))


def link_to_clone(folder):
    """A command that is a link to the script of a clone."""
    write(os.path.join(folder, 'clone', 'sather'))
    os.makedirs(os.path.join(folder, 'to', 'bin'))
    os.symlink('../../clone/sather', os.path.join(folder, 'to', 'bin', 'sather'))


def link_to_nothing(folder):
    """A class that is a link which leads nowhere."""
    os.makedirs(os.path.join(folder, 'to', 'share', 'sather', 'lib'))
    os.symlink('../nothing', os.path.join(folder, 'to', 'share', 'sather', 'lib', 'fmap.sa'))


def file_of_others(folder):
    """A command of somebody else."""
    write(os.path.join(folder, 'to', 'bin', 'sather'))


def file_for_folder(folder):
    """A file where a folder has to be made."""
    write(os.path.join(folder, 'to', 'share', 'man'))


def changed_since(folder):
    """An installation of which a class was changed."""
    install(folder, 'to')
    write(os.path.join(folder, 'to', 'share', 'sather', 'lib', 'fmap.sa'))


def link_since(folder):
    """An installation whose command was made a link."""
    link = os.path.join(folder, 'to', 'bin', 'sather')
    write(os.path.join(folder, 'clone', 'sather'))
    install(folder, 'to')
    os.remove(link)
    os.symlink('../../clone/sather', link)


def full_disk_leaves_nothing():
    """That an installation for which there is no room leaves nothing: files may have 512,000 bytes, fewer than the program has."""
    with tempfile.TemporaryDirectory() as folder:
        write(os.path.join(folder, 'to', 'share', 'other'))
        before = state_of(folder)
        left = report.run(['sh', '-c', 'trap "" XFSZ; ulimit -f 1000; exec "$0" to', INSTALL], folder)
        if left.status != 1 or b'install: nothing was put below ' not in left.lines:
            return 'install left %r' % left
        return differing(before, state_of(folder))


def ended_is_taken_out():
    """That what an installation has put that was ended in its middle is taken out: all that it lists may be there or not."""
    with tempfile.TemporaryDirectory() as folder:
        write(os.path.join(folder, 'to', 'share', 'other'))
        before = state_of(folder)
        # A `mv` that ends the script, as a signal that nothing can catch, at the ninth file.
        write(os.path.join(folder, 'tools', 'mv'), b'#!/bin/sh\necho >>"$COUNT"\n[ $(wc -l <"$COUNT") -lt 9 ] || kill -9 $PPID\nexec /bin/mv "$@"\n')
        os.chmod(os.path.join(folder, 'tools', 'mv'), 0o755)
        left = install(folder, 'to', PATH='%s:%s' % (os.path.join(folder, 'tools'), os.environ['PATH']), COUNT=os.path.join(folder, 'n'))
        if left.status != -9 or not os.path.exists(os.path.join(folder, 'to', 'bin', 'sather')):
            return 'install wasn\'t ended where it should be, and left %r' % left
        left = install(folder, '--remove', 'to')
        shutil.rmtree(os.path.join(folder, 'tools'))
        os.remove(os.path.join(folder, 'n'))
        return report.difference(Left(), left) or differing(before, state_of(folder))


def removal_keeps(prepare, name):
    """That --remove says which name it leaves, which isn't what was put there, and takes out the others."""
    with tempfile.TemporaryDirectory() as folder:
        prepare(folder)
        wanted = {path: it for path, it in state_of(folder).items()
                  if path in ('to', 'clone', 'clone/sather') or ('to/' + name).startswith(path)}
        left = install(folder, '--remove', 'to')
        said = Left(lines=b'install: %s stays: it isn\'t what ./install put\n' % name.encode())
        return report.difference(said, left) or differing(wanted, state_of(folder))


def stands_below_destdir():
    """That DESTDIR is a folder around the prefix, to install and to take out."""
    with tempfile.TemporaryDirectory() as folder:
        around = os.path.join(folder, 'package')
        left = install(folder, '/usr/local', DESTDIR=around)
        ran = report.run([os.path.join(around, 'usr', 'local', 'bin', 'sather'), 'version'], folder)
        removed = install(folder, '--remove', '/usr/local', DESTDIR=around)
        return report.difference(Left(), left) or report.difference(Left(), removed) \
            or (None if ran.status == 0 else 'the program left %r' % ran) \
            or differing({'package': 'a folder', 'package/usr': 'a folder', 'package/usr/local': 'a folder'}, state_of(folder))


def replaces_earlier():
    """That an installation without sums, whose command is the program itself, is replaced, and what is no longer put is taken out."""
    with tempfile.TemporaryDirectory() as folder:
        to = os.path.join(folder, 'to')
        listed = ['bin', 'bin/sather', 'share', 'share/sather', 'share/sather/lib', 'share/sather/lib/gone.sa', 'share/sather/installed']
        for name in ('bin/sather', 'share/sather/lib/gone.sa'):
            write(os.path.join(to, name))
        write(os.path.join(to, 'share', 'sather', 'installed'), ''.join(name + '\n' for name in listed).encode())
        left = install(folder, 'to')
        gone = not os.path.exists(os.path.join(to, 'share', 'sather', 'lib', 'gone.sa'))
        ran = report.run([os.path.join(to, 'bin', 'sather'), 'version'], folder)
        removed = install(folder, '--remove', 'to')
        return report.difference(Left(), left) or report.difference(Left(), removed) \
            or (None if ran.status == 0 else 'the program left %r' % ran) or (None if gone else 'what is no longer put is still there') \
            or differing({'to': 'a folder'}, state_of(folder))


@contextlib.contextmanager
def installed():
    """A folder in which ./install has put all below `to a`, with a program."""
    with report.folder_with({'f.sa': HELLO, 'large.sa': LARGE}) as folder:
        left = install(folder, 'to a')
        if left != Left():
            raise AssertionError('install left %r' % left)
        yield folder


def limit_is_answered():
    """That a limit on the size of files is an output fault of the installed program."""
    with installed() as folder:
        left = report.run(['sh', '-c', 'ulimit -f 10; "to a/bin/sather" run large.sa >out'], folder)
        return report.difference(Left(lines=b'output fault\n', status=123), left)


def runs_by_link():
    """That the installed command runs by a link, by its name on the PATH and from its own folder."""
    with installed() as folder:
        os.symlink('to a/bin/sather', os.path.join(folder, 'linked'))
        path = os.path.join(folder, 'to a', 'bin') + ':' + os.environ['PATH']
        lines = ('./linked run f.sa', 'PATH=%r; sather run f.sa' % path, 'cd "to a/bin" && ./sather run ../../f.sa')
        return next(filter(None, (report.difference(Left(b'Hello\n'), report.run(['sh', '-c', line], folder)) for line in lines)), None)


def hosts_run():
    """That the hosts which are put run: that of Node with a module, and the page's server with the installed program."""
    with installed() as folder:
        hosts = os.path.join(folder, 'to a', 'share', 'sather', 'hosts')
        report.run([os.path.join(folder, 'to a', 'bin', 'sather'), 'build', '-o', 'm.wasm', 'f.sa'], folder)
        ran = report.run(['node', os.path.join(hosts, 'node', 'run.js'), 'm.wasm'], folder) if judges.has_node() else Left(b'Hello\n')
        with subprocess.Popen([sys.executable, os.path.join(hosts, 'web', 'serve'), '--port', '0'], stdout=subprocess.PIPE) as server:
            address = server.stdout.readline()
            server.terminate()
        if not re.fullmatch(rb'http://127\.0\.0\.1:\d+/\n', address):
            return 'serve put %r' % address
        removed = install(folder, '--remove', 'to a')
        return report.difference(Left(b'Hello\n'), ran) or report.difference(Left(), removed) \
            or (None if os.listdir(os.path.join(folder, 'to a')) == [] else 'something is left of what was put')


def another_program_is_refused():
    """That a program whose sum isn't that of SHA256SUMS isn't installed."""
    with tempfile.TemporaryDirectory() as folder:
        top = os.path.join(folder, 'clone')
        for name in ('lib', 'man', 'completions', 'hosts', 'bin'):
            shutil.copytree(os.path.join(report.TOP, name), os.path.join(top, name), ignore=shutil.ignore_patterns('tests', '__pycache__'))
        for name in ('install', 'sather', 'crates.txt', 'SHA256SUMS'):
            shutil.copy(os.path.join(report.TOP, name), top)
        as_shipped = install(folder, 'one', top=top)
        with open(os.path.join(top, SHIPPED), 'ab') as file:
            file.write(b'\0')
        wanted = Left(lines=b'install: %s isn\'t the program whose sum is in SHA256SUMS\n' % SHIPPED.encode(), status=1)
        return report.difference(Left(), as_shipped) or report.difference(wanted, install(folder, 'two', top=top)) \
            or ('something was put' if os.path.exists(os.path.join(folder, 'two')) else None)


def sum_differs():
    """Where SHA256SUMS is another than that of the program that ships, or None."""
    with open(os.path.join(report.TOP, SHIPPED), 'rb') as file:
        wanted = '%s  %s\n' % (hashlib.sha256(file.read()).hexdigest(), SHIPPED)
    return None if report.text_of('SHA256SUMS') == wanted else '`sha256sum %s >SHA256SUMS` writes another one' % SHIPPED


TRIES = [
    ('a link to the script of a clone isn\'t written through', functools.partial(refuses, link_to_clone)),
    ('a link that leads nowhere isn\'t written through', functools.partial(refuses, link_to_nothing)),
    ('a file of others isn\'t replaced', functools.partial(refuses, file_of_others)),
    ('a file that was changed since isn\'t replaced', functools.partial(refuses, changed_since)),
    ('a link that was made since isn\'t replaced', functools.partial(refuses, link_since)),
    ('nothing stays where a folder can\'t be made', functools.partial(refuses, file_for_folder)),
    ('nothing stays where the disk is full', full_disk_leaves_nothing),
    ('what was put before the end came is taken out', ended_is_taken_out),
    ('a file that was changed since isn\'t taken out', functools.partial(removal_keeps, changed_since, 'share/sather/lib/fmap.sa')),
    ('a link that was made since isn\'t taken out', functools.partial(removal_keeps, link_since, 'bin/sather')),
    ('DESTDIR is around the prefix', stands_below_destdir),
    ('an earlier installation is replaced', replaces_earlier),
    ('a limit on files is an output fault of the installed program', limit_is_answered),
    ('the installed command runs by link and by name', runs_by_link),
    ('the hosts that are installed run', hosts_run),
    ('a program with another sum isn\'t installed', another_program_is_refused),
    ('SHA256SUMS is that of the program that ships', sum_differs),
]


def try_all(told, word=''):
    """Tries what has a name that holds the word."""
    chosen = [(name, wrong) for name, wrong in TRIES if word in name]
    told.part('installing', len(chosen))
    for name, wrong in chosen:
        told.count(name, wrong())


def main():
    words = argparse.ArgumentParser(description=__doc__, formatter_class=argparse.RawDescriptionHelpFormatter)
    words.add_argument('--only', default='')
    told = report.Report()
    try_all(told, words.parse_args().only)
    return told.close()


if __name__ == '__main__':
    sys.exit(main())
