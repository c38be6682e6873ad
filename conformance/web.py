#!/usr/bin/env python3
"""web.py PROGRAM [--only WORD] [--pictures FOLDER]

Tries the page of hosts/web, which `serve` serves with the program:

- what the server refuses, which needs no browser;
- that the scripts which `gather` writes are as it writes them;
- in a Chromium without a window: programs that are typed, run, refused, stopped, and end by themselves; each example, with its
  output; the picture of live iters and its steps; the page on a narrow screen, in the dark and by keyboard alone; three lessons
  (lessons.py); the page as a file that is opened; and a folder that `pack` has made (packed.py).

--pictures keeps pictures of the page in a folder. --only takes the tries whose names hold a word. Where there is no Chromium, the
tries in it are left out, and that is told."""
import argparse
import importlib
import os
import sys

import browser
import examples
import lessons
import marks
import packed
import reading
import report
import serving
from browser import expect

WEB = serving.WEB
CONTROL, SHIFT = browser.CONTROL, browser.SHIFT
COUNTS = 'class MAIN is\nmain is\nloop #OUT + 1.upto!(3) + " "; end;\nend;\nend;\n'
INDENTED = 'class MAIN is\n   main is\n      loop\n         #OUT + 1.upto!(3) + " ";\n      end;\n   end;\nend;\n'
COPY = 'class MAIN is main is loop b ::= #IN.get_byte; while!(b >= 0); #OUT + b.char; end; end; end;'
ENDLESS = 'class MAIN is main is #OUT + "begun"; loop end; end; end;'
REFUSED = 'class MAIN is\n   main is\n      x ::= 3 +;\n   end;\nend;\n'
UNLOOPED = 'class MAIN is\n   main is\n      i ::= 1.upto!(3);\n   end;\nend;\n'
FAULTY = 'class MAIN is\n   main is\n      #OUT + "a";\n      #OUT + 1 / 0;\n   end;\nend;\n'
SUMS = '''class MAIN is
   sum!(x:INT):INT is
      total ::= 0;
      loop total := total + x; yield total; end;
   end;
   main is
      loop #OUT + sum!(1.upto!(2)) + " "; end;
   end;
end;
'''
# The trace of a run of SUMS: in each round `upto!` gives the argument, and then `sum!` goes on, up to the third
# round, which `upto!` ends.
SUMS_TRACE = '''start f.sa:7 0
yield f.sa:7 0
start f.sa:7 1
yield f.sa:7 1
resume f.sa:7 0
yield f.sa:7 0
resume f.sa:7 1
yield f.sa:7 1
resume f.sa:7 0
quit f.sa:7 0
abandon f.sa:7 1
'''
# The lanes of the picture, each with its name, and of each the states that the cursor has passed.
LANES = '''[...document.querySelectorAll('.lanes .label')].map((label) =>
  [...label.querySelectorAll('text')].map((text) => text.textContent).join(' ').trim())'''
STATES = '''[...document.querySelectorAll('.chip')].map((chip) => chip.textContent + ' ' + chip.title)'''
# The elements with words of their own whose letters are too faint upon what is behind them: a ratio below 4.5.
FAINT = '''(() => {
  const part = (value) => { const c = value / 255; return c <= 0.03928 ? c / 12.92 : ((c + 0.055) / 1.055) ** 2.4; };
  const light = ([r, g, b]) => 0.2126 * part(r) + 0.7152 * part(g) + 0.0722 * part(b);
  const numbers = (text) => text.match(/[0-9.]+/g).map(Number);
  const behind = (node) => {
    for (; node; node = node.parentElement) {
      const color = numbers(getComputedStyle(node).backgroundColor);
      if (color.length < 4 || color[3] === 1) return color;
    }
    return [255, 255, 255];
  };
  const isFaint = (node) => {
    const [one, other] = [light(numbers(getComputedStyle(node).color)), light(behind(node))].sort((a, b) => b - a);
    return (one + 0.05) / (other + 0.05) < 4.5;
  };
  const hasWords = (node) => [...node.childNodes].some((one) => one.nodeType === 3 && one.textContent.trim());
  const nodes = [...document.body.querySelectorAll('*:not(svg *):not(option):not(textarea):not(:disabled)')];
  return [...new Set(nodes.filter((node) => hasWords(node) && node.checkVisibility() && isFaint(node))
    .map((node) => node.tagName + '.' + node.className))];
})()'''
# The elements that stick out of a screen sideways.
OUTSIDE = '''(() => {
  const inside = (node) => node.closest('.editor, .lanes, #output');
  const wide = document.scrollingElement.scrollWidth > innerWidth ? ['the page itself'] : [];
  const nodes = [...document.querySelectorAll('button, select, textarea, input, h1, h2, p, pre, ul')];
  const sticksOut = ({left, right}) => left < -1 || right > innerWidth + 1;
  const found = nodes.filter((node) => node.checkVisibility() && !inside(node) && sticksOut(node.getBoundingClientRect()));
  return [...wide, ...found.map((node) => node.id || node.tagName)];
})()'''
FOCUSED = '''(() => {
  const node = document.activeElement;
  const ring = node.closest('.time') ?? node.closest('.editor') ?? node;
  const style = getComputedStyle(ring);
  const name = node.id || node.dataset.part || node.tagName;
  return [name, style.outlineStyle !== 'none' && parseFloat(style.outlineWidth) > 0];
})()'''
# What the Tab key comes to, in its order.
STOPS = ['example', 'lesson', 'run', 'trace', 'copy', 'large', 'source', 'SUMMARY', 'input', 'output', 'first', 'back', 'forward', 'last',
         'play', 'slider', 'chip', 'chip', 'chip', 'lanes', 'SUMMARY']


def gathering():
    """The module of hosts/web that `gather` uses."""
    sys.dont_write_bytecode = True
    sys.path.append(WEB)
    return importlib.import_module('gathering')


def traces(program):
    """Whether the program has the option --trace."""
    with report.folder_with({'f.sa': SUMS.encode()}) as folder:
        return report.run([program, 'run', '--trace', 'f.sa'], folder).status == 0


def script_differs(name, text):
    """Where a script is something else than `gather` writes, or None."""
    return None if report.text_of('hosts', 'web', name) == text else 'it isn\'t as `hosts/web/gather PROGRAM` writes it'


# The page, in a browser.

def fill(page, text):
    """Types a text in place of the source, key by key where it is short."""
    page.value("byId('source').focus()")
    page.select_all()
    page.type(text)


def write(page, source, given=''):
    """Puts a source and an input into the page."""
    page.value('editor.text = %s, input.value = %s, 0' % (browser.json.dumps(source), browser.json.dumps(given)))


def run(page):
    """Runs what stands in the page by the keys, and gives the output and the line below."""
    page.press('Enter', CONTROL)
    page.wait("!runButton.disabled")
    return page.value("[output.textContent, ended.textContent]")


def is_typed_and_run(page):
    fill(page, COUNTS.replace('loop ', 'loop\n').replace(' end;', '\nend;'))
    expect('the source', INDENTED, page.value('editor.text'))
    expect('the output', ['1 2 3 ', 'Ended.'], run(page))


def is_kept(page):
    """What was typed is there when the page is loaded anew, and when one comes back from an example."""
    page.value("location.hash = 'hello'")
    page.wait("picker.value === 'hello'")
    fill(page, 'class MAIN is main is end; end;')
    expect('what is picked', ['own', '#own'], page.value('[picker.value, location.hash]'))
    page.value("location.hash = 'verse'")
    page.wait("picker.value === 'verse'")
    page.value("location.hash = 'own'")
    page.wait("picker.value === 'own'")
    expect('the source', 'class MAIN is main is end; end;', page.value('editor.text'))
    page.open(page.value('location.href'))
    expect('the source', 'class MAIN is main is end; end;', page.value('editor.text'))


def is_highlighted(page):
    write(page, COUNTS)
    coloured = '#lines :is(.of-structure, .of-statement, .of-repeat)'
    expect('the words in colour', ['class', 'is', 'is', 'loop', 'end', 'end', 'end'],
           page.value("[...document.querySelectorAll('%s')].map((one) => one.textContent)" % coloured))
    expect('the lines that are shown', COUNTS,
           page.value("[...byId('lines').children].map((one) => one.textContent).join('\\n')"))


def gets_its_input(page):
    write(page, COPY, 'one\ntwo é')
    expect('the output', ['one\ntwo é', 'Ended.'], run(page))


def is_refused(page):
    write(page, REFUSED)
    expect('the output', ['', ''], run(page))
    marked = "[[...byId('lines').children].findIndex((one) => one.matches('.is-refused')), told.querySelector('.head')?.textContent ?? '']"
    expect('the line that is marked', [2, 'Line 3: E06: unexpected token'], page.value(marked))
    page.value("byId('source').focus()")
    page.press('End', CONTROL)
    page.type(' ')
    expect('the line that is marked once something is typed', [-1, ''], page.value(marked))


def is_explained(page):
    write(page, UNLOOPED)
    run(page)
    expect('what is said of it', ['Line 3: E35: iter call outside a loop', 'Write loop .. end; around the statement.'],
           page.value("[told.querySelector('.head').textContent, [...told.querySelectorAll('.sentence')].at(-1).textContent]"))
    expect('lines of the source among it', 0, page.value("[...told.querySelectorAll('*')].filter((one) => one.textContent.includes('|')).length"))


def has_a_fault(page):
    write(page, FAULTY)
    expect('the output', ['a', 'Fault: division by zero.'], run(page))
    expect('the note', ['fault: division by zero'],
           page.value("[...document.querySelectorAll('#lines .is-refused')].map((one) => one.dataset.note)"))


def ends_by_itself(page):
    write(page, ENDLESS)
    expect('the output', ['begun', 'Stopped: it was running for 10 seconds.'], run(page))


def is_stopped(page):
    write(page, ENDLESS)
    page.press('Enter', CONTROL)
    page.wait("output.textContent === 'begun'")
    page.value('stopButton.click()')
    page.wait("!runButton.disabled")
    expect('the end', 'Stopped.', page.value('ended.textContent'))


def puts_out_too_much(page):
    write(page, 'class MAIN is main is loop #OUT + "abcdefgh"; end; end; end;')
    expect('the output', [1 << 20, 'Stopped: it put out a million bytes.'],
           page.value("busy(runHere).then(() => [output.textContent.length, ended.textContent])"))


def draws_lives(page):
    write(page, SUMS)
    page.value("document.querySelector('.picture details').open = true, byId('recorded').value = %s, byId('draw').click()"
               % browser.json.dumps(SUMS_TRACE))
    expect('the lanes', ['main', 'upto! 0', 'sum! 1'], page.value(LANES))
    expect('the signs', ['start', 'yield', 'start', 'yield', 'resume', 'yield', 'resume', 'yield', 'resume', 'quit', 'abandon'],
           page.value("[...document.querySelectorAll('.lanes .mark')].map((one) => /is-(\\w+)/.exec(one.className.baseVal)[1])"))


def steps(page):
    draws_lives(page)
    words = "picture.words.textContent"
    expect('the first event', 'Event 1 of 11: the call in line 7 starts upto! 0.', page.value(words))
    expect('the lives', ['main waiting', 'upto! 0 running'], page.value(STATES))
    page.value("document.querySelector('[data-part=forward]').click()")
    expect('after a step', 'Event 2 of 11: upto! 0 yields to main, and is suspended.', page.value(words))
    expect('the lives', ['main running', 'upto! 0 suspended'], page.value(STATES))
    expect('the line that is marked', [6],
           page.value("[...byId('lines').children].flatMap((one, at) => one.matches('.is-event') ? [at] : [])"))
    page.value("document.querySelector('[data-part=last]').click()")
    expect('the last event', 'Event 11 of 11: sum! 1 is abandoned with its loop.', page.value(words))
    expect('the lives', ['main running'], page.value(STATES))
    page.value("document.querySelector('[data-part=back]').click()")
    expect('a step back', 'Event 10 of 11: upto! 0 ends, and its loop with it.', page.value(words))


def draws_what_a_terminal_shows(page):
    """A trace with the output between its lines is drawn with this output."""
    lines = SUMS_TRACE.splitlines(keepends=True)
    write(page, SUMS)
    page.value("document.querySelector('.picture details').open = true, byId('recorded').value = %s, byId('draw').click()"
               % browser.json.dumps(''.join([*lines[:4], '1 ', *lines[4:8], '3 ', *lines[8:], '\n'])))
    expect('the lanes', ['main', 'upto! 0', 'sum! 1'], page.value(LANES))
    page.value('picture.go(3)')
    expect('what is put out in the time of the event', ['1 3 \n', '1 '],
           page.value("[output.textContent, output.querySelector('.is-now').textContent]"))


def draws_nested_lives(page):
    page.value("location.hash = 'fringe'")
    page.wait("picker.value === 'fringe'")
    page.value('picture.go(40)')
    around = '''[...document.querySelectorAll('.lane .around')].every((box) => {
      const life = picture.lives.find((one) => one.number === Number(box.parentElement.dataset.instance));
      const outer = document.querySelector(`.lane[data-instance="${life.inside.number}"] .around`);
      const [a, b] = [box.getBoundingClientRect(), outer?.getBoundingClientRect()];
      return !b || (a.top >= b.top && a.bottom <= b.bottom && a.left >= b.left && a.right <= b.right);
    })'''
    expect('whether each lane is drawn inside that of its caller', True, page.value(around))
    expect('whether lanes are inside one another at all', True, page.value('picture.visible.some((life) => life.depth > 3)'))


def traces_what_is_typed(page):
    write(page, SUMS)
    page.press('Enter', CONTROL | SHIFT)
    page.wait('!runButton.disabled')
    expect('the output', '1 3 ', page.value('output.textContent'))
    expect('the lanes', ['main', 'upto! 0', 'sum! 1'], page.value(LANES))
    expect('the events', 11, page.value('picture.events.length'))


def stops_traces(page):
    write(page, 'class MAIN is main is loop loop i ::= 1.upto!(9); end; end; end; end;')
    page.value('busy(showIters)')
    expect('the end', 'Stopped: the picture has its first 20000 events.', page.value('ended.textContent'))
    page.value('picture.go(15000)')
    expect('the cursor', 15000, page.value('picture.at'))


def shows_it_at_once(page):
    """Source, output and lanes are on the screen together, and one step is seen in each."""
    page.size(1280, 800)
    page.value("location.hash = 'squares'")
    page.wait("picker.value === 'squares' && picture.events.length")
    page.value("scrollTo(0, 0), document.querySelector('[data-part=forward]').click()")
    expect('what is below the screen', [], page.value("""['source', 'output', 'ended'].map(byId).concat(picture.lanes)
      .filter((one) => (one.closest('.editor') ?? one).getBoundingClientRect().bottom > innerHeight).map((one) => one.id)"""))
    expect('what is put out in the time of the event', '1 makes 1\n', page.value("output.querySelector('.is-now').textContent"))
    page.size(1280, 900)


def looks_right(page):
    """On screens of several widths, in the light and in the dark, nothing sticks out and no letters are faint."""
    draws_lives(page)
    for width in (320, 390, 800, 1280):
        page.size(width, 800, width < 500)
        expect('what sticks out at a width of %d' % width, [], page.value(OUTSIDE))
        expect('lanes at a width of %d' % width, 3, page.value(LANES + '.length'))
    for is_dark in (False, True):
        page.dark(is_dark)
        expect('what is faint', [], page.value(FAINT))
        light = page.value("getComputedStyle(document.body).backgroundColor.match(/[0-9]+/g).map(Number)[0]")
        expect('whether the page is dark', is_dark, light < 128)
    page.dark(False)
    page.size(1280, 900)


def needs_no_mouse(page):
    """Each thing to use is come to by Tab, with a ring around it, and is used by keys."""
    draws_lives(page)
    page.value("document.activeElement.blur(), document.querySelector('h1').tabIndex = -1, document.querySelector('h1').focus()")
    traces_runs = page.value('traceButton.checkVisibility()')
    for wanted in (stop for stop in STOPS if stop != 'trace' or traces_runs):
        page.press('Tab')
        expect('what has the focus, and whether that is seen', [wanted, True], page.value(FOCUSED))
        if wanted == 'forward':
            page.press('Enter')
        if wanted == 'slider':
            page.press('ArrowRight', count=3)
    expect('the event that the keys have come to', 4, page.value('picture.at'))
    page.value("picker.focus()")
    before = page.value('picker.value')
    page.press('ArrowDown')
    expect('whether another example is picked by keys', True, page.value('picker.value') != before)


def runs_example(name):
    """The try of an example in the page."""
    def example(page):
        page.value("pick('%s')" % name)
        given = examples.bytes_of(name + '.in') or b''
        expect('the input', given.decode(), page.value('input.value'))
        wanted = examples.bytes_of(name + '.out').decode()
        expect('the output', [wanted, 'Ended.'], page.value("busy(runHere).then(() => [output.textContent, ended.textContent])"))
    return example


def opens_as_a_file(page):
    """The page without a server has the examples, their outputs, pictures of some, and draws traces."""
    page.open('file://%s#fringe' % os.path.join(WEB, 'index.html'))
    expect('the output', examples.bytes_of('fringe.out').decode(), page.value('output.textContent'))
    expect('whether it has a picture', True, page.value('picture.events.length > 0'))
    expect('whether there is nothing to run', True, page.value('!runButton.checkVisibility() && !traceButton.checkVisibility()'))
    marks.marks_old_recordings(page)
    draws_lives(page)
    steps(page)


TRIES = [
    ('a program that is typed runs', is_typed_and_run), ('what is typed is kept', is_kept),
    ('a source is highlighted as it stands', is_highlighted),
    ('a program reads its input', gets_its_input), ('a refusal is marked in its line', is_refused),
    ('a refusal is explained', is_explained),
    *marks.OF_OLD, *marks.OF_REFUSALS,
    ('a fault is marked in its line', has_a_fault), ('a run ends by itself when its time is up', ends_by_itself),
    ('a run is stopped', is_stopped), ('a run that puts out too much is ended', puts_out_too_much),
    ('a trace that was recorded is drawn', draws_lives), ('the picture goes forward and back', steps),
    ('what a terminal shows of a traced run is drawn', draws_what_a_terminal_shows),
    ('lanes are drawn inside one another', draws_nested_lives),
    ('source, output and lanes are seen together', shows_it_at_once),
    ('the page looks right on each screen, in the light and in the dark', looks_right),
    ('the page needs no mouse', needs_no_mouse), *reading.TRIES,
    *(('examples/%s.sa' % name, runs_example(name)) for name in examples.names()),
    ('the page opens as a file', opens_as_a_file),
]
TRACED = [('what is typed is traced', traces_what_is_typed), ('a trace without end is cut', stops_traces),
          *lessons.LESSONS]


def in_browser(page, name, try_it, folder=None):
    """What is wrong by a try, or None. A picture of the page is kept where a folder is given."""
    page.complaints.clear()
    try:
        try_it(page)
        if folder:
            with open(os.path.join(folder, name.replace('/', ' ') + '.png'), 'wb') as file:
                file.write(page.picture())
    except (browser.Differs, browser.Failed) as error:
        return str(error)
    # A refusal is answered by a status that the browser takes for an error.
    complaints = [text for text in page.complaints if '422' not in text]
    return 'the browser complains: %s' % complaints if complaints else None


def try_pages(address, told, chosen, folder):
    """Tries the page in a browser, up to the try in which the browser itself fails."""
    with browser.Browser() as page:
        page.size(1280, 900)
        page.open(address)
        for name, try_it in chosen:
            told.count('%s, in Chromium' % name, in_browser(page, name, try_it, folder))
            if page.has_ended:
                return told.leave_out('tries of the page, whose browser has failed', len(chosen) - chosen.index((name, try_it)) - 1)
    return None


def try_folder(program, told, word):
    """Tries a folder of `pack` in a browser of its own."""
    with browser.Browser() as page:
        page.size(1280, 900)
        packed.try_all(program, told, page, word, in_browser)


def try_all(program, told, word='', folder=None):
    """Tries what has a name that holds the word."""
    tries = [*TRIES[:-1], *(TRACED if traces(program) else []), TRIES[-1]]
    chosen = [one for one in tries if word in one[0]]
    told.part('the page', len(chosen))
    if word in 'hosts/web/gather' and traces(program):
        for name, text in gathering().scripts(program):
            told.count('hosts/web/' + name, script_differs(name, text))
    with serving.served(program) as address:
        serving.try_all(program, address, told, word)
        if not browser.found():
            told.lacks('chromium', 'the page of hosts/web was not tried in a browser')
        elif chosen:
            try_pages(address, told, chosen, folder)
    if browser.found() and packed.has(word):
        try_folder(program, told, word)


def main():
    words = argparse.ArgumentParser(description=__doc__, formatter_class=argparse.RawDescriptionHelpFormatter)
    words.add_argument('program')
    words.add_argument('--only', default='')
    words.add_argument('--pictures')
    given = words.parse_args()
    told = report.Report()
    if given.pictures:
        os.makedirs(given.pictures, exist_ok=True)
    try_all(os.path.abspath(given.program), told, given.only, given.pictures)
    return told.close()


if __name__ == '__main__':
    sys.exit(main())
