"""The library refusing.c, which refuses what a program asks of its host, and how a program is run with it."""
import contextlib
import os
import shutil
import subprocess
import tempfile

SOURCE = os.path.join(os.path.dirname(os.path.abspath(__file__)), 'refusing.c')


@contextlib.contextmanager
def library(told, what):
    """The path of the library, built by cc, or None where that is missing, which is noted with what isn't tried for it."""
    if shutil.which('cc') is None:
        told.lacks('cc', what)
        yield None
        return
    with tempfile.TemporaryDirectory() as folder:
        path = os.path.join(folder, 'refusing.so')
        subprocess.run(['cc', '-shared', '-fPIC', '-O2', '-o', path, SOURCE], check=True)
        yield path


def environment(path, failing):
    """The environment in which the calls of these numbers fail, by the names of their devices."""
    pairs = ['%s %d' % (device, call) for device, calls in failing.items() for call in calls]
    return {'LD_PRELOAD': path, 'FAIL': ' '.join(pairs)} if pairs else {}
