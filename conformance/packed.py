"""Tries of a folder that hosts/web/pack makes: a static host, which knows nothing but files, gives its pages to a browser, and the browser
opens them as files. Three lessons are given from it by the keys alone, their programs, outputs and steps those of lessons.py."""
import contextlib
import functools
import http.server
import os
import subprocess
import sys
import tempfile
import threading

import browser
import examples
import lessons
import serving
from browser import expect

OWN = '-- Counts to two.\nclass MAIN is\n   main is\n      loop #OUT + 1.upto!(2) + " "; end;\n   end;\nend;\n'
MOST_STOPS = 60     # that Tab makes on a page


class Host(http.server.SimpleHTTPRequestHandler):
    """A static host: it gives files, and notes which requests it has no file for."""
    refused = []

    def send_error(self, code, message=None, explain=None):
        self.refused.append('%s %s' % (self.command, self.path))
        super().send_error(code, message, explain)

    def log_message(self, *_):
        """Requests aren't told."""


@contextlib.contextmanager
def folder(program, *options):
    """A folder that `pack` has made, with a page for a program of one's own."""
    with tempfile.TemporaryDirectory() as made:
        path = os.path.join(made, 'counts.sa')
        with open(path, 'w', encoding='utf-8') as file:
            file.write(OWN)
        site = os.path.join(made, 'site')
        words = [sys.executable, os.path.join(serving.WEB, 'pack'), '-o', site, '--program', program, *options, path]
        subprocess.run(words, stdout=subprocess.DEVNULL, check=True)
        yield site


@contextlib.contextmanager
def hosted(site):
    """The address at which a static host serves a folder meanwhile."""
    Host.refused.clear()
    with http.server.ThreadingHTTPServer(('127.0.0.1', 0), functools.partial(Host, directory=site)) as server:
        server.daemon_threads = True
        threading.Thread(target=server.serve_forever, daemon=True).start()
        try:
            yield 'http://127.0.0.1:%d' % server.server_port
        finally:
            server.shutdown()


def tab_to(page, script):
    """Goes on by Tab to what an expression says."""
    for _ in range(MOST_STOPS):
        page.press('Tab')
        if page.value('document.activeElement === %s' % script):
            return
    raise browser.Differs('Tab never comes to %s' % script)


def put(page, number):
    """Puts a program of the lesson into the editor by the keys, and goes on to the lanes."""
    tab_to(page, "byId('reading').querySelectorAll('.listing button')[%d]" % number)
    page.press('Enter')
    tab_to(page, 'picture.lanes')


def opens(page, address, name):
    """Opens a page of the folder."""
    page.open('%s/%s.html' % (address, name))
    page.wait('editor.text')
    page.value("document.querySelector('h1').tabIndex = -1, document.querySelector('h1').focus()")


def gives_first_loop(page, address):
    text = lessons.program('squared is')
    opens(page, address, 'lesson-the-first-loop')
    expect('the lesson, and its program', ['The first loop', text], page.value('[reader.title.textContent, editor.text]'))
    expect('the output', '1 squared is 1\n2 squared is 4\n3 squared is 9\ndone\n', page.value('output.textContent'))
    tab_to(page, 'picture.lanes')
    lessons.step_through_loop(page)


def gives_walk(page, address):
    opens(page, address, 'lesson-iters-in-iters')
    put(page, 1)
    expect('the program', lessons.program('left.walk!'), page.value('editor.text'))
    expect('the output', '1 3 4 5 7 8 9 \n', page.value('output.textContent'))
    lessons.step_back_from_root(page)


def gives_two_sites(page, address):
    opens(page, address, 'lesson-a-call-outside-a-loop')
    expect('the refusal', [3, 'Line 3: E35: iter call outside a loop', 'elt!'],
           page.value("[%s, told.querySelector('.head').textContent, document.querySelector('.is-place').textContent]" % lessons.MARKED))
    opens(page, address, 'lesson-two-sites-are-two-instances')
    put(page, 0)
    expect('the output', 'aa bb cc dd \n', page.value('output.textContent'))
    lessons.step_through_sites(page)
    page.value('picker.focus()')
    put(page, 1)
    expect('the output, and the lanes', ['ab cd \n', ['main', 'pairs! 0', 'elt! 1']],
           page.value('[output.textContent, %s]' % lessons.LANES))


def marks_what_is_changed(page, address):
    """Nothing can be run, and what was recorded is marked as old once the program is another."""
    opens(page, address, 'fringe')
    expect('the output', examples.bytes_of('fringe.out').decode(), page.value('output.textContent'))
    expect('whether there is nothing to run', True, page.value('!runButton.checkVisibility() && !traceButton.checkVisibility()'))
    page.value("byId('source').focus()")
    page.type(' ')
    expect('whether output and picture are marked as old', [True, True],
           page.value("['old', 'stale'].map((name) => byId(name).checkVisibility())"))


def has_each_page(page, address):
    """The list leads to a page for each example, each lesson and the program of one's own, and each opens with what it is called by."""
    page.open(address + '/index.html')
    names = page.value("[...document.querySelectorAll('main a')].map((one) => one.getAttribute('href'))")
    lesson_names = ['lesson-the-first-loop', 'lesson-iters-in-iters', 'lesson-two-sites-are-two-instances']
    expect('what the list lacks', [], [name for name in [*examples.names(), *lesson_names, 'counts'] if name + '.html' not in names])
    opens(page, address, 'counts')
    expect('the page of a program of one\'s own', ['Sather: counts, Counts to two', OWN, '1 2 ', 6],
           page.value('[document.title, editor.text, output.textContent, picture.events.length]'))
    opens(page, address, 'queens')
    expect('how many events a long run has, and what is told of it', [200, 'The picture has the first 200 events of the run.'],
           page.value('[picture.events.length, ended.textContent]'))


def is_framed(page, address):
    """Another page has a page of the folder in a frame, at an event, without what is about other programs."""
    page.open(address + '/index.html')
    page.value("""document.body.append(Object.assign(document.createElement('iframe'),
      {src: 'fringe.html?embed&event=25', width: 900, height: 700})), 0""")
    page.wait("frames[0].document.querySelector('[data-part=slider]')?.value === '24'")
    expect('what is seen in the frame', [False, False, True, True, True], page.value(
        "['h1', '#example', '.editor', '#output', '.lanes'].map((one) => frames[0].document.querySelector(one).checkVisibility())"))


def try_all(program, told, page, word, in_browser):
    """Tries a folder, by a static host and as files, as far as the names hold the word."""
    with folder(program) as site, hosted(site) as address:
        for name, try_it in TRIES:
            if word in name:
                told.count('%s, in Chromium' % name, in_browser(page, name, lambda page, it=try_it: it(page, address)))
        for name, try_it in LESSONS:
            if word in name:
                told.count('%s, as a file, in Chromium' % name, in_browser(page, name, lambda page, it=try_it: it(page, 'file://' + site)))
        if not word:
            told.count('a static host has each file that the pages ask for', '; '.join(Host.refused) or None)


def has(word):
    """Whether a try has a name that holds the word."""
    return any(word in name for name, _ in TRIES)


LESSONS = [
    ('a lesson of the folder: the first loop', gives_first_loop), ('a lesson of the folder: the walk of a tree', gives_walk),
    ('a lesson of the folder: two sites are two instances', gives_two_sites),
]
TRIES = [
    ('the folder has a page for each', has_each_page), *LESSONS,
    ('a page of the folder marks what is changed', marks_what_is_changed), ('a page of the folder is framed', is_framed),
]
