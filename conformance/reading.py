"""Tries of what the page of hosts/web has for a class: lessons beside the editor, classes of the library, a program in the address, a
frame in another page, a size for the projector, and what is told of an instance."""
import browser
import marks
from browser import CONTROL, expect

LANES = '''[...document.querySelectorAll('.lanes .label')].map((label) =>
  [...label.querySelectorAll('text')].map((text) => text.textContent).join(' ').trim())'''
BOUND = '''class MAIN is
   main is
      f ::= bind(1.upto!(2));
      loop #OUT + f.call! + " "; end;
   end;
end;
'''
# Its trace, by what docs/ITERS.md says of events.
BOUND_TRACE = '''start f.sa:4 0
yield f.sa:4 0
resume f.sa:4 0
yield f.sa:4 0
resume f.sa:4 0
quit f.sa:4 0
'''
# What is told of an instance: its name, and rows of a name and what it has.
ABOUT = '''[picture.about.querySelector('h3').textContent,
  ...[...picture.about.querySelectorAll('dl > div')].map((row) => [...row.children].map((one) => one.textContent).join(': '))]'''
# What of the page isn't in sight, of those parts that show a step.
BELOW = '''[document.querySelector('.editor'), output, picture.words, picture.lanes]
  .filter((one) => one.getBoundingClientRect().bottom > innerHeight).map((one) => one.id || one.className || one.dataset.part)'''


def go(page, fragment):
    """Goes to an address of the page."""
    page.value('location.hash = %s' % browser.json.dumps(fragment))
    page.wait('location.hash === %s' % browser.json.dumps('#' + fragment))


def draw(page, source, trace):
    """Draws a trace of a source."""
    marks.write(page, source)
    page.value("byId('recorded').value = %s, byId('draw').click()" % browser.json.dumps(trace))


def has_lessons(page):
    """A lesson is picked by keys and stands beside the editor; its programs are put into the editor, and it can be closed."""
    marks.write(page, marks.COUNTS)
    page.value('lessonPicker.focus()')
    page.press('Home')
    page.press('ArrowDown')
    page.wait('reader.isOpen')
    expect('the lesson', ['The first loop', marks.COUNTS], page.value('[reader.title.textContent, editor.text]'))
    right, left = page.value("[byId('reading').getBoundingClientRect().right, byId('source').getBoundingClientRect().left]")
    expect('whether it stands beside the source', True, right <= left)
    page.value("byId('reading').querySelector('.listing button').click()")
    expect('whether its program stands in the editor', True, page.value("editor.text.includes('squared is')"))
    marks.run(page)
    expect('the output', '1 squared is 1\n2 squared is 4\n3 squared is 9\ndone\n', page.value('output.textContent'))
    page.value("byId('reading').querySelector('nav a').focus(), byId('reading').querySelector('nav a').click()")
    page.wait("reader.title.textContent === 'Several in one loop'")
    page.press('Escape')
    expect('whether it is open after Escape, and what has the keys', [False, 'lesson'],
           page.value('[reader.isOpen, document.activeElement.id]'))


def adds_classes(page):
    """A button adds a class of the library, and takes it out again."""
    marks.write(page, marks.COUNTS)
    button = "[...document.querySelectorAll('#shelf button')].find((one) => one.textContent.endsWith(' tup'))"
    page.value("byId('library').open = true, %s.click()" % button)
    expect('the button, and what is told', ['Take out tup', 'tup stands behind the program.'],
           page.value("[%s.textContent, byId('added').textContent]" % button))
    expect('whether the class stands behind the program', True,
           page.value("editor.text.startsWith(%s) && editor.text.includes('class TUP{')" % browser.json.dumps(marks.COUNTS)))
    page.value('%s.click()' % button)
    expect('the program, once it is taken out', [marks.COUNTS, 'Add tup'], page.value('[editor.text, %s.textContent]' % button))
    page.value("byId('library').open = false")


def links(page):
    """A program with its input is in the address, and comes back from it in a window that has kept nothing."""
    source = 'class MAIN is main is #OUT + "é ←\\n"; end; end;\n'
    page.value("location.hash = 'own'")
    marks.write(page, source, 'one\ntwo')
    page.value('copyLink()')
    address = page.value('location.href')
    expect('whether the address has the program', True, '#s=' in address)
    page.value('sessionStorage.clear()')
    page.open(address)
    page.wait('editor.text')
    expect('the program and the input', [source, 'one\ntwo'], page.value('[editor.text, input.value]'))
    marks.change(page, 'source')
    expect('the address once it is changed', '#own', page.value('location.hash'))
    page.open(address[:-9])
    page.wait('editor.text')
    expect('what is told of half an address', 'The address holds a program, but not all of it.', page.value('told.textContent'))
    page.value("pick('squares')")
    page.value('copyLink()')
    expect('the address of an example', '#squares', page.value('location.hash'))


def embeds(page):
    """With `?embed` the page has the program, its output and its picture alone, at the event that is asked for."""
    address = page.value('location.origin + location.pathname')
    page.open(address + '?embed&event=4#squares')
    page.wait('picture.at === 3')
    shown = "['h1', '#example', '#lesson', '#copy', '#library', '.editor', '#output', '.lanes', '#whole']"
    expect('what is seen', ['.editor', '#output', '.lanes', '#whole'],
           page.value(shown + '.filter((one) => document.querySelector(one).checkVisibility())'))
    page.open(address + '?embed&lanes#squares')
    page.wait('picture.at === 0')
    expect('what is seen with &lanes', ['.lanes', '#whole'],
           page.value(shown + '.filter((one) => document.querySelector(one).checkVisibility())'))
    page.open(address)
    page.wait('editor.text')


def is_large(page):
    """At the size for a projector letters and lanes are larger, and on 1024 by 768 source, output, step and lanes are in sight."""
    page.size(1024, 768)
    go(page, 'squares')
    page.wait("picker.value === 'squares' && picture.events.length")
    sizes = "['.line', '#output', '.lanes .label text'].map((one) => document.querySelector(one).getBoundingClientRect().height)"
    before = page.value(sizes)
    page.value("byId('large').click(), scrollTo(0, 0)")
    page.wait("picture.scale > 1")
    expect('whether each is a third larger', [True] * 2,
           [now > 1.3 * was for was, now in zip(before, page.value(sizes)) if was < 100])
    expect('what isn\'t in sight', [], page.value(BELOW))
    page.value("document.querySelector('[data-part=forward]').click()")
    x, y = page.value("(() => { const box = document.querySelectorAll('.lanes .mark')[3].getBoundingClientRect(); "
                      "return [box.x + box.width / 2, box.y + box.height / 2]; })()")
    for kind in ('mousePressed', 'mouseReleased'):
        page.ask('Input.dispatchMouseEvent', type=kind, x=x, y=y, button='left', clickCount=1)
    expect('the event that a click comes to', 3, page.value('picture.at'))
    page.open(page.value('location.href'))
    page.wait('picture.scale > 1')
    page.value("byId('large').click()")
    page.size(1280, 900)


def tells_of_an_instance(page):
    """What the events tell of the instance of the event, or of one that was chosen by keys; and a bound iter has its name."""
    draw(page, BOUND, BOUND_TRACE)
    expect('the lanes', ['main', 'upto! 0'], page.value(LANES))
    page.value('picture.go(3)')
    rows = ['Call: f.call! in line 4', 'In a loop of: main', 'Started: by event 1']
    expect('what is told', ['upto! 0', *rows, 'Resumed: once', 'Has yielded: 2 times', 'Now: suspended'], page.value(ABOUT))
    page.value("document.querySelector('.chip button').focus()")
    page.press(' ')
    expect('what is told of the chosen one', ['main, chosen', 'Now: running'], page.value(ABOUT))
    page.press('Tab')
    page.press(' ')
    page.value('picture.go(5)')
    expect('what is told at its end', ['upto! 0, chosen', *rows, 'Resumed: 2 times', 'Has yielded: 2 times', 'Now: ended'],
           page.value(ABOUT))


def moves_little(page):
    """Whom the browser says to like little motion sees the steps of Play slowly."""
    draw(page, BOUND, BOUND_TRACE)
    page.ask('Emulation.setEmulatedMedia', features=[{'name': 'prefers-reduced-motion', 'value': 'reduce'}])
    before = page.value("(() => { const old = setInterval; let every; window.setInterval = (work, time) => { every = time; return old(work, time); };"
                        " picture.play(true); picture.play(false); window.setInterval = old; return every; })()")
    page.ask('Emulation.setEmulatedMedia', features=[])
    expect('whether a step takes more than a second', True, before > 1000)


def runs_without_shared_memory(page):
    """A browser that shares no memory with a worker, as with a page that came over a network, gets the output all the same."""
    page.value("Object.defineProperty(self, 'crossOriginIsolated', {value: false, configurable: true}), 0")
    marks.write(page, marks.COUNTS)
    marks.run(page)
    expect('the output', ['1 2 3 ', 'Ended.'], page.value('[output.textContent, ended.textContent]'))
    marks.write(page, 'class MAIN is main is #OUT + "begun"; loop end; end; end;')
    page.press('Enter', CONTROL)
    page.wait("output.textContent === 'begun'")
    page.value('stopButton.click()')
    page.wait('!runButton.disabled')
    expect('the end', 'Stopped.', page.value('ended.textContent'))
    marks.write(page, 'class MAIN is main is loop #OUT + "abcdefgh"; end; end; end;')
    expect('an output that is too large', [1 << 20, 'Stopped: it put out a million bytes.'],
           page.value("busy(runHere).then(() => [output.textContent.length, ended.textContent])"))
    page.open(page.value('location.href'))


TRIES = [
    ('lessons stand beside the editor', has_lessons), ('a button adds a class of the library', adds_classes),
    ('a program is in the address', links), ('the page is embedded', embeds), ('the page is large for a projector', is_large),
    ('an instance is told about', tells_of_an_instance), ('steps are slow where little is to move', moves_little),
    ('a browser that shares no memory runs programs', runs_without_shared_memory),
]
