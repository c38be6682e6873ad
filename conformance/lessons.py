"""Three lessons of docs/ITERS.md, given by the page of hosts/web and the keys alone: programs are typed as the lessons have them, run
and mended, and their iters are gone through step by step."""
import pages
from browser import CONTROL, SHIFT, expect

LANES = '''[...document.querySelectorAll('.lanes .label')].map((label) =>
  [...label.querySelectorAll('text')].map((text) => text.textContent).join(' ').trim())'''
# What an event says, and what is put out in its time.
EVENT = '''[picture.words.textContent.replace(/^Event \\d+ of \\d+: /, ''), document.querySelector('.is-now').textContent]'''
RUNNING = '''[...document.querySelectorAll('.chip:not(.is-suspended)')].map((chip) => chip.textContent)'''
MARKED = '''[...byId('lines').children].findIndex((one) => one.matches('.is-refused')) + 1'''


def program(text):
    """The program of a lesson that has a text."""
    return next(one.program.decode() for one in pages.examples('ITERS.md') if text in one.program.decode())


def go_to_source(page):
    """Goes from the list of programs to the source by the Tab key."""
    page.value('picker.focus()')
    page.press('Tab', count=5 + page.value('Number(traceButton.checkVisibility())'))
    expect('what has the keys', 'source', page.value('document.activeElement.id'))


def type_lines(page, lines):
    """Types lines without what they begin with, which the editor puts there."""
    page.type('\n'.join(line.strip() for line in lines))


def type_program(page, text):
    """Types a program in place of what is there."""
    go_to_source(page)
    page.select_all()
    type_lines(page, text.rstrip('\n').split('\n'))
    expect('the program', text, page.value('editor.text') + '\n')


def run(page, output):
    """Runs the program, whose output is told."""
    page.press('Enter', CONTROL)
    page.wait('!runButton.disabled')
    expect('the output', output, page.value('output.textContent'))


def show(page, lanes):
    """Shows the iters, whose lanes are told. Then the keys belong to the lanes."""
    page.press('Enter', CONTROL | SHIFT)
    page.wait('!runButton.disabled')
    expect('the lanes', lanes, page.value(LANES))
    expect('whether the lanes have the keys', True, page.value('document.activeElement === picture.lanes'))


def step(page, key, *events):
    """Steps by a key to each of these events: what it says, and what is put out in its time."""
    for event in events:
        page.press(key)
        expect('the event', list(event), page.value(EVENT))


def first_loop(page):
    """The first loop: into the empty program its lines are typed."""
    text = program('squared is')
    page.value('sessionStorage.clear(), picker.focus()')
    page.press('Home')
    page.wait("picker.value === 'own'")
    go_to_source(page)
    type_lines(page, text.split('\n')[2:7])
    expect('the program', text, page.value('editor.text'))
    run(page, '1 squared is 1\n2 squared is 4\n3 squared is 9\ndone\n')
    show(page, ['main', 'upto! 0'])
    step_through_loop(page)


def step_through_loop(page):
    """Steps through the first loop, and a step back at its end."""
    expect('the event', ['the call in line 4 starts upto! 0.', ''], page.value(EVENT))
    resumed = ('the call in line 4 resumes upto! 0.', '')
    yields = 'upto! 0 yields to main, and is suspended.'
    step(page, 'ArrowRight', (yields, '1 squared is 1\n'), resumed, (yields, '2 squared is 4\n'), resumed, (yields, '3 squared is 9\n'),
         resumed, ('upto! 0 ends, and its loop with it.', 'done\n'))
    step(page, 'ArrowLeft', resumed)


def walk(page):
    """The walk of a tree: each value climbs from its node to the root."""
    type_program(page, program('left.walk!'))
    run(page, '1 3 4 5 7 8 9 \n')
    page.press('Enter', CONTROL | SHIFT)
    page.wait('!runButton.disabled && document.activeElement === picture.lanes')
    step_back_from_root(page)


def step_back_from_root(page):
    """Steps from the end of the walk back to where its last value begins to climb."""
    step(page, 'End', ('walk! 1 ends, and its loop with it.', '\n'))
    page.press('ArrowLeft', count=5)
    step(page, 'ArrowLeft', ('walk! 1 yields to main, and is suspended.', '9 '), ('walk! 5 yields to walk! 1, and is suspended.', ''),
         ('walk! 7 yields to walk! 5, and is suspended.', ''), ('the call in line 15 starts walk! 7.', ''))
    expect('what runs', ['main', 'walk! 1', 'walk! 5', 'walk! 7'], page.value(RUNNING))


def two_sites(page):
    """Two sites are two instances; and before that a call that is in no loop."""
    type_program(page, program('first ::= "text".elt!'))
    run(page, '')
    expect('the line that is marked', [3, True], page.value("[%s, told.textContent.startsWith('Line 3: E35')]" % MARKED))
    type_program(page, program('"abcd".elt! + "abcd".elt! + " "'))
    expect('the line that is marked', 0, page.value(MARKED))
    run(page, 'aa bb cc dd \n')
    show(page, ['main', 'elt! 0', 'elt! 1'])
    step_through_sites(page)
    type_program(page, program('pairs!(once text:STR)'))
    expect('whether it is told that the picture is an old one', True, page.value("byId('stale').checkVisibility()"))
    run(page, 'ab cd \n')
    show(page, ['main', 'pairs! 0', 'elt! 1'])
    expect('whether it is told that the picture is an old one', False, page.value("byId('stale').checkVisibility()"))


def step_through_sites(page):
    """Steps through the first round, in which each site starts an instance."""
    step(page, 'ArrowRight', ('elt! 0 yields to main, and is suspended.', 'a'), ('the call in line 3 starts elt! 1.', ''),
         ('elt! 1 yields to main, and is suspended.', 'a '))


LESSONS = [
    ('a lesson: the first loop', first_loop), ('a lesson: the walk of a tree', walk),
    ('a lesson: two sites are two instances', two_sites),
]
