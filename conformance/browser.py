"""A Chromium without a window, driven by the DevTools protocol over a pipe."""
import base64
import contextlib
import json
import os
import select
import shutil
import signal
import subprocess
import sys
import tempfile
import time

NAMES = ('chromium', 'chromium-browser', 'google-chrome')
SECONDS = 120       # the most that an answer of the browser, or what is waited for on a page, may take
# Chromium reads from its handle 3 and writes to its handle 4.
LAUNCH = '''
import fcntl, os, sys
handles = [fcntl.fcntl(int(word), fcntl.F_DUPFD, 10) for word in sys.argv[1:3]]
for handle, wanted in zip(handles, (3, 4)):
    os.dup2(handle, wanted)
os.execvp(sys.argv[3], sys.argv[3:])
'''
# Of a key: its code, the number that Windows gives it, and what it types.
KEYS = {
    'Enter': ('Enter', 13, '\r'), 'Tab': ('Tab', 9, ''), 'ArrowLeft': ('ArrowLeft', 37, ''), 'ArrowRight': ('ArrowRight', 39, ''),
    'ArrowDown': ('ArrowDown', 40, ''), 'Home': ('Home', 36, ''), 'End': ('End', 35, ''), ' ': ('Space', 32, ' '), 'a': ('KeyA', 65, 'a'),
    'Backspace': ('Backspace', 8, ''), 'Escape': ('Escape', 27, ''),
}
SHIFT, CONTROL = 8, 2


class Failed(Exception):
    """What the browser, or a script on the page, has failed with."""


class Differs(Exception):
    """What a try of a page has found to be wrong."""


def expect(what, wanted, came):
    """Raises where something else came than was wanted."""
    if wanted != came:
        raise Differs('%s: expected %r, and came %r' % (what, wanted, came))


def found():
    """The browser's program, or None."""
    return next((path for path in map(shutil.which, NAMES) if path), None)


class Browser:
    """A browser and one page in it. It is ended at the end of the `with`."""

    def __init__(self):
        self.folder = tempfile.mkdtemp()
        ours, theirs = os.pipe(), os.pipe()
        words = [found(), '--headless=new', '--remote-debugging-pipe', '--user-data-dir=' + self.folder, '--no-first-run',
                 '--disable-gpu', '--disable-extensions', '--disable-background-networking', '--disable-dev-shm-usage',
                 '--disable-component-update', '--disable-sync', '--disable-crash-reporter']
        if os.geteuid() == 0:
            words.append('--no-sandbox')
        launch = [sys.executable, '-c', LAUNCH, str(ours[0]), str(theirs[1]), *words, 'about:blank']
        self.process = subprocess.Popen(launch, pass_fds=(ours[0], theirs[1]), stdout=subprocess.DEVNULL, stderr=subprocess.DEVNULL,
                                        env={**os.environ, 'HOME': self.folder}, start_new_session=True)
        os.close(ours[0])
        os.close(theirs[1])
        self.writes, self.reads, self.held = ours[1], theirs[0], b''
        self.count, self.session, self.complaints, self.has_ended = 0, None, [], False

    def __enter__(self):
        try:
            target = self.ask('Target.createTarget', url='about:blank')['targetId']
            self.session = self.ask('Target.attachToTarget', targetId=target, flatten=True)['sessionId']
            for part in ('Page', 'Runtime', 'Log'):
                self.ask(part + '.enable')
        except BaseException:
            self.__exit__()
            raise
        return self

    def __exit__(self, *_):
        os.close(self.writes)
        try:
            self.process.wait(10)
        except subprocess.TimeoutExpired:
            pass
        # What it has started ends with it.
        with contextlib.suppress(ProcessLookupError):
            os.killpg(self.process.pid, signal.SIGKILL)
        self.process.wait()
        os.close(self.reads)
        shutil.rmtree(self.folder, ignore_errors=True)

    def message(self, until):
        """The next message of the browser."""
        while b'\0' not in self.held:
            left = until - time.monotonic()
            if left <= 0 or not select.select([self.reads], [], [], left)[0]:
                self.has_ended = True
                raise Failed('no answer within %d seconds' % SECONDS)
            piece = os.read(self.reads, 1 << 16)
            if not piece:
                self.has_ended = True
                raise Failed('the browser has ended')
            self.held += piece
        text, self.held = self.held.split(b'\0', 1)
        return json.loads(text)

    def ask(self, method, **words):
        """What the browser answers to a command. What pages complain of meanwhile is noted."""
        self.count += 1
        asked = {'id': self.count, 'method': method, 'params': words, **({'sessionId': self.session} if self.session else {})}
        text, until = json.dumps(asked).encode() + b'\0', time.monotonic() + SECONDS
        while text:
            text = text[os.write(self.writes, text):]
        while True:
            told = self.message(until)
            if told.get('id') == self.count:
                if 'error' in told:
                    raise Failed('%s: %s' % (method, told['error']['message']))
                return told['result']
            self.note(told)

    def note(self, told):
        """Notes an exception, an error on the console, and a line of the browser's log."""
        what = told.get('params', {})
        if told.get('method') == 'Runtime.exceptionThrown':
            details = what['exceptionDetails']
            self.complaints.append(details.get('exception', {}).get('description', details['text']))
        elif told.get('method') == 'Runtime.consoleAPICalled' and what['type'] in ('error', 'warning'):
            self.complaints.append(' '.join(str(one.get('value', one.get('description'))) for one in what['args']))
        elif told.get('method') == 'Log.entryAdded' and what['entry']['level'] == 'error':
            self.complaints.append('%s %s' % (what['entry']['text'], what['entry'].get('url', '')))

    def open(self, url):
        """Opens a page, and waits until all of it is there."""
        self.ask('Page.navigate', url='about:blank')
        self.wait('location.href === "about:blank"')
        self.ask('Page.navigate', url=url)
        self.wait('location.href !== "about:blank" && document.readyState === "complete"')

    def value(self, script):
        """What an expression of JavaScript is on the page, once it is settled."""
        told = self.ask('Runtime.evaluate', expression=script, awaitPromise=True, returnByValue=True, userGesture=True)
        if 'exceptionDetails' in told:
            details = told['exceptionDetails']
            raise Failed(details.get('exception', {}).get('description', details['text']))
        return told['result'].get('value')

    def wait(self, script):
        """Waits until an expression is true."""
        until = time.monotonic() + SECONDS
        while not self.value(script):
            if time.monotonic() > until:
                raise Failed('never came: ' + script)
            time.sleep(0.05)

    def press(self, key, modifiers=0, count=1):
        """Presses a key and releases it, so many times."""
        code, number, text = KEYS[key]
        if modifiers & CONTROL:
            text = ''
        for _ in range(count):
            for kind in ('keyDown' if text else 'rawKeyDown', 'keyUp'):
                words = {'text': text} if text and kind == 'keyDown' else {}
                self.ask('Input.dispatchKeyEvent', type=kind, key=key, code=code, windowsVirtualKeyCode=number, modifiers=modifiers,
                         **words)

    def type(self, text):
        """Types a text where the focus is, key by key."""
        for sign in text:
            if sign == '\n':
                self.press('Enter')
            else:
                self.ask('Input.dispatchKeyEvent', type='char', text=sign, key=sign)

    def select_all(self):
        """Presses the keys that select all that stands where the focus is."""
        self.ask('Input.dispatchKeyEvent', type='rawKeyDown', key='a', code='KeyA', windowsVirtualKeyCode=65, modifiers=CONTROL,
                 commands=['selectAll'])
        self.ask('Input.dispatchKeyEvent', type='keyUp', key='a', code='KeyA', windowsVirtualKeyCode=65, modifiers=CONTROL)

    def size(self, width, height, touch=False):
        """Gives the page this size."""
        self.ask('Emulation.setDeviceMetricsOverride', width=width, height=height, deviceScaleFactor=1, mobile=touch)

    def dark(self, is_dark):
        """Lets the page believe that its user likes it dark, or light."""
        scheme = 'dark' if is_dark else 'light'
        self.ask('Emulation.setEmulatedMedia', features=[{'name': 'prefers-color-scheme', 'value': scheme}])

    def picture(self):
        """A picture of the whole page, as PNG."""
        return base64.b64decode(self.ask('Page.captureScreenshot', format='png', captureBeyondViewport=True)['data'])
