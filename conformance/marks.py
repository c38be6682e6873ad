"""Tries of what the page of hosts/web marks: an output and a picture that belong to a program that has been changed since, and the
places of refusals."""
import browser
from browser import CONTROL, expect

COUNTS = 'class MAIN is\n   main is\n      loop #OUT + 1.upto!(3) + " "; end;\n   end;\nend;\n'
MAP = 'class MAIN is\n   main is\n      ages ::= #FMAP{STR, INT};\n      ages["Ann"] := 7;\n      #OUT + ages["Ann"] + "\\n";\n   end;\nend;\n'
# What is told of the output and of the picture, where that is seen.
OLD = '''['old', 'stale'].map((name) => byId(name).checkVisibility() ? byId(name).textContent : '')'''


# Three refusals in three bodies, in the order in which the compiler meets them: that of need, not of lines.
REFUSED = '''class MAIN is
   other is
      i ::= 1.upto!(3);
   end;
   main is
      #OUT + "é" + count + "\\n";
   end;
   third is #OUT + 1 / true; end;
end;
'''
# What the list says of each refusal, the notes behind the lines, and what is underlined in them.
HEADS = "[...told.querySelectorAll('.head')].map((one) => one.textContent)"
NOTES = "[...byId('lines').children].flatMap((one, at) => one.matches('.is-refused') ? [[at + 1, one.dataset.note]] : [])"
PLACES = "[...document.querySelectorAll('#lines .is-place')].map((one) => one.textContent)"


def write(page, source, given=''):
    """Puts a source and an input into the page."""
    page.value('editor.text = %s, input.value = %s, 0' % (browser.json.dumps(source), browser.json.dumps(given)))


def change(page, name):
    """Types a blank behind what stands in the source or in the input."""
    page.value("byId('%s').focus()" % name)
    page.press('End', CONTROL)
    page.type(' ')


def run(page):
    """Runs what stands in the page by the keys."""
    page.press('Enter', CONTROL)
    page.wait('!runButton.disabled')


def marks_old_output(page):
    """The output of a program that was changed is marked, and that of one that was changed back isn't."""
    write(page, COUNTS)
    run(page)
    expect('what is told of the output at its end', '', page.value(OLD + '[0]'))
    change(page, 'source')
    expect('what is told once the program is changed', 'This is the output of the program before it was changed.',
           page.value(OLD + '[0]'))
    expect('the output', ['1 2 3 ', True], page.value("[output.textContent, output.matches('.is-old')]"))
    page.press('Backspace')
    expect('what is told once it is changed back', ['', False], page.value("[%s[0], output.matches('.is-old')]" % OLD))
    change(page, 'input')
    expect('what is told once the input is changed', 'This is the output of the program with the input before it was changed.',
           page.value(OLD + '[0]'))
    run(page)
    expect('what is told of a new output', '', page.value(OLD + '[0]'))


def marks_nothing_where_nothing_is(page):
    """Without an output nothing is told of it."""
    page.value("location.hash = 'hello'")
    page.wait("picker.value === 'hello'")
    change(page, 'source')
    expect('what is told', '', page.value(OLD + '[0]'))


def marks_old_recordings(page):
    """In the page as a file, where nothing is run, the output and the picture of an example that is changed are marked."""
    page.value("location.hash = 'fringe'")
    page.wait("picker.value === 'fringe'")
    expect('what is told of what was recorded', ['', ''], page.value(OLD))
    change(page, 'source')
    expect('what is told once the program is changed',
           ['This is the output of the program before it was changed.', 'This is the picture of the program before it was changed.'],
           page.value(OLD))


def marks_all_refusals(page):
    """All refusals are told, in the order of lines, and each is marked in its line at the place that the compiler shows."""
    write(page, REFUSED)
    run(page)
    expect('what is told', ['Line 3: E35: iter call outside a loop', 'Line 6: E30: unknown name', 'Line 8: E31: no feature fits'],
           page.value(HEADS))
    expect('the notes', [[3, 'E35: iter call outside a loop'], [6, 'E30: unknown name'], [8, 'E31: no feature fits']], page.value(NOTES))
    expect('what is underlined', ['upto!', 'count', '/'], page.value(PLACES))
    page.value("told.querySelectorAll('.place')[1].click()")
    expect('where the cursor is then', REFUSED.index('count'), page.value('editor.area.selectionStart'))
    change(page, 'source')
    expect('what is marked once something is typed', [[], [], 0], page.value("[%s, %s, told.children.length]" % (NOTES, PLACES)))


def links_refusals(page):
    """Each refusal leads to what is to say about it, which stands beside the editor with programs, and leaves what was typed."""
    write(page, REFUSED)
    run(page)
    page.value("told.querySelector('.head a').focus(), told.querySelector('.head a').click()")
    page.wait('reader.isOpen')
    expect('what is open', ['E35: iter call outside a loop', '#about-E35'], page.value('[reader.title.textContent, location.hash]'))
    expect('the source', REFUSED, page.value('editor.text'))
    expect('how many programs it has', 2, page.value("byId('reading').querySelectorAll('.listing').length"))
    page.press('Escape')
    expect('whether it is open after Escape', False, page.value('reader.isOpen'))


def adds_what_is_missing(page):
    """A class that the library has is added from its refusal. What `check --all` finds in classes that are as they are isn't told."""
    write(page, MAP)
    run(page)
    expect('what is told', ['Line 3: E12: class unknown or not usable'], page.value(HEADS))
    page.value("told.querySelector('.proposed').click()")
    expect('whether the class stands behind the program', True,
           page.value("editor.text.startsWith(%s) && editor.text.includes('class FMAP{')" % browser.json.dumps(MAP)))
    run(page)
    expect('the output', '7\n', page.value('output.textContent'))
    page.value("editor.text = editor.text.replace('+ \"', '+ gone + \"'), 0")
    run(page)
    expect('what is told of a name that is unknown', ['Line 5: E30: unknown name'], page.value(HEADS))


OF_REFUSALS = [
    ('all refusals are marked at their places', marks_all_refusals), ('a refusal leads to what is to say about it', links_refusals),
    ('a class that is missing is added', adds_what_is_missing),
]
OF_OLD = [
    ('an output is marked as old when the program is changed', marks_old_output),
    ('an output that isn\'t there is never old', marks_nothing_where_nothing_is),
]
