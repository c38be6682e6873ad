#!/usr/bin/env python3
"""pictures.py PROGRAM [--only NAME]

Draws the pictures of the page of hosts/web that stand in docs/pictures: serves the page with the program, lets it show the iters of
a program, steps to an event, and keeps what a Chromium without a window draws. With pngquant and optipng the files are small. --only
draws one of them."""
import argparse
import base64
import os
import shutil
import subprocess
import sys

import browser
import packed
import pages
import report
import serving
import web

FOLDER = os.path.join(report.TOP, 'docs', 'pictures')
WIDE, NARROW = (1280, 800), (390, 844)
MOST = 100_000      # bytes of a picture


def of_lessons(text):
    """The program of docs/ITERS.md that has a text."""
    return next(one.program.decode() for one in pages.examples('ITERS.md') if text in one.program.decode())


def example(name, event):
    """The page with the recorded picture of an example."""
    def shown(page):
        page.value("location.hash = '%s'" % name)
        page.wait("picker.value === '%s' && picture.events.length" % name)
        page.value('picture.go(%d), picture.take()' % (event - 1))
    return shown


def type_own(page, source):
    """The page with a program of one's own."""
    page.value("location.hash = 'own'")
    page.wait("picker.value === 'own'")
    web.write(page, source)


def lesson(text, event):
    """The page with the iters of a program of docs/ITERS.md, as it is run there."""
    def shown(page):
        type_own(page, of_lessons(text))
        page.value('busy(showIters).then(() => picture.go(%d))' % (event - 1))
    return shown


def refusal(page):
    """The page with a program that is refused."""
    type_own(page, of_lessons('first ::= "text".elt!'))
    web.run(page)


def packed_lesson(name, number, event):
    """A page of a folder that `pack` has made: a lesson with one of its programs at an event."""
    def shown(page, address):
        page.open('%s/%s.html' % (address, name))
        page.wait('editor.text')
        page.value("byId('reading').querySelectorAll('.listing button')[%d].click(), picture.go(%d), picture.lanes.focus(), scrollTo(0, 0)"
                   % (number, event - 1))
    return shown


# Of a picture of the folder: its name, the size of the window, and what is shown.
OF_FOLDER = [
    ('lesson-loop', WIDE, packed_lesson('lesson-the-first-loop', 0, 4)),
    ('lesson-walk', WIDE, packed_lesson('lesson-iters-in-iters', 1, 55)),
    ('lesson-sites', WIDE, packed_lesson('lesson-two-sites-are-two-instances', 0, 4)),
]
# Of a picture: its name, the size of the window, whether it is dark, and what is shown.
PICTURES = [
    ('wide', WIDE, False, example('fringe', 25)),
    ('dark', WIDE, True, lesson('steps!(once task:ITER)', 60)),
    ('narrow', NARROW, False, example('fringe', 25)),
    ('refusal', (1280, 640), False, refusal),
    ('nested', (1280, 720), False, lesson('below!(9)', 8)),
    ('walk', WIDE, False, lesson('left.walk!', 55)),
]


def keep(name, page):
    """Writes a picture of what is in the window, as small as the tools that are there make it."""
    picture = base64.b64decode(page.ask('Page.captureScreenshot', format='png')['data'])
    path = os.path.join(FOLDER, name + '.png')
    with open(path, 'wb') as file:
        file.write(picture)
    quantized = ['pngquant', '--force', '--skip-if-larger', '--ext', '.png', '128', path]
    packed = ['optipng', '-quiet', '-o4', '-strip', 'all', path]
    for words in (quantized, packed):
        if shutil.which(words[0]):
            subprocess.run(words, check=True)
    size = os.path.getsize(path)
    print('%s: %d bytes' % (os.path.relpath(path, report.TOP), size))
    return size < MOST


def main():
    words = argparse.ArgumentParser(description=__doc__, formatter_class=argparse.RawDescriptionHelpFormatter)
    words.add_argument('program')
    words.add_argument('--only', default='')
    given = words.parse_args()
    os.makedirs(FOLDER, exist_ok=True)
    are_small = True
    with serving.served(os.path.abspath(given.program)) as address, browser.Browser() as page:
        for name, size, is_dark, shown in PICTURES:
            if given.only in name:
                page.size(*size, touch=size == NARROW)
                page.dark(is_dark)
                page.open(address)
                shown(page)
                are_small &= keep(name, page)
    with packed.folder(os.path.abspath(given.program)) as site, packed.hosted(site) as address, browser.Browser() as page:
        for name, size, shown in OF_FOLDER:
            if given.only in name:
                page.size(*size)
                shown(page, address)
                are_small &= keep(name, page)
    return 0 if are_small else 1


if __name__ == '__main__':
    sys.exit(main())
