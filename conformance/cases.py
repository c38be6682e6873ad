"""Reads the table of cases in crates/test_cases/data. The README of crates/test_cases describes its format.

A case is a call of the program: the words of its command, the files that lie where it runs and its input; and what it has to
leave: its output, its lines on err and its status."""
import dataclasses
import os
import re

TABLE = os.path.join(os.path.dirname(os.path.abspath(__file__)), '..', 'crates', 'test_cases', 'data')
ESCAPE = re.compile(rb'\\(n|\\|#|x[0-9a-f]{2}|.?)', re.S)
STREAMS = {'stdin', 'stdout', 'front of stdout', 'stderr'}
DEVICES = {'store', 'stdin', 'stdout', 'stderr'}


class Malformed(Exception):
    """What stands in the table has another form than the README tells."""


@dataclasses.dataclass
class Case:
    """A case. `subject` is the file in which it stands, below the table and without its ending. `output_may_be_cut` says that
    out may take a front of `output` alone. `failing` has, for the devices `store`, `stdin`, `stdout` and `stderr`, the numbers
    of the calls that fail, from 0."""
    name: str
    subject: str
    words: list[str] = dataclasses.field(default_factory=list)
    files: dict[str, bytes] = dataclasses.field(default_factory=dict)
    input: bytes = b''
    output: bytes = b''
    output_may_be_cut: bool = False
    lines: bytes = b''
    status: int = 0
    failing: dict[str, list[int]] = dataclasses.field(default_factory=dict)

    def prints(self, output, may_be_cut=False):
        """Sets the output that is wanted."""
        self.output, self.output_may_be_cut = output, may_be_cut

    def tells(self, line, status):
        """Adds a line on err, and sets the status."""
        self.lines += line.encode() + b'\n'
        self.status = status


def unescaped(text, number=0):
    """The bytes that a text with escapes stands for, the number in place of `\\#`."""
    def byte(escape):
        what = escape.group(1)
        if what in (b'n', b'\\'):
            return b'\n' if what == b'n' else b'\\'
        if what == b'#':
            return b'%d' % number
        if len(what) == 3:
            return bytes([int(what[1:], 16)])
        raise Malformed('an escape is unknown: %s' % text)
    return ESCAPE.sub(byte, text.encode())


def words_of(text):
    """The words of a command."""
    return [unescaped(word).decode() for word in text.split()]


def told(case, line):
    """Reads a line that tells of a case, before its parts."""
    word, _, rest = line.partition(' ')
    if word == '$':
        case.words = words_of(rest)
    elif line == 'accepted':
        case.prints(b'accepted\n')
    elif word == 'prints':
        case.prints(unescaped(rest))
    elif line.startswith('may print '):
        case.prints(unescaped(line.removeprefix('may print ')), True)
    elif word == 'refused':
        case.tells('f.sa:' + rest, 120)
    elif word == 'fault':
        case.tells('f.sa:' + rest.replace(': ', ': fault: ', 1), 121)
    elif word == 'err':
        case.tells(rest, case.status)
    elif word == 'status':
        case.status = int(rest)
    elif word == 'input':
        case.input = unescaped(rest)
    elif word == 'fails':
        device, *calls = rest.split()
        if device not in DEVICES:
            raise Malformed('no device has the name ' + device)
        case.failing[device] = [int(call) for call in calls]
    else:
        told_of_file(case, line)


def told_of_file(case, line):
    """Reads a line that is a file: its name, which ends in .sa, and its text."""
    name, colon, text = line.partition(':')
    if not name.endswith('.sa') or not colon or (text and not text.startswith(' ')):
        raise Malformed('this is no line of a case: ' + line)
    case.files[name] = text[1:].encode()


def repeated(line):
    """The bytes of a line of a text that is told in parts: a number of times, and what stands there so often."""
    times, _, text = line.partition(' ')
    if r'\#' not in text:
        return unescaped(text) * int(times)
    return b''.join(unescaped(text, number) for number in range(int(times)))


def text_of(form, text):
    """The bytes of a part of a case, by the form that stands in its heading."""
    if form == 'parts':
        return b''.join(repeated(line) for line in text.splitlines() if line)
    if form == 'hex':
        return b''.join(bytes.fromhex(line.partition(';;')[0]) for line in text.splitlines())
    bare = text.rstrip('\n').encode()
    if form is None:
        return bare + b'\n' if bare else b''
    if form == 'unended':
        return bare
    raise Malformed('no form of a text has the name ' + form)


def told_of_part(case, part):
    """Reads a part of a case: a file, or a stream."""
    heading, _, text = part.partition('\n')
    name, form = re.fullmatch(r'(.*?)(?: \((\w+)\))?', heading).groups()
    content = text_of(form, text)
    if name == 'stdin':
        case.input = content
    elif name == 'stderr':
        case.lines = content
    elif name in STREAMS:
        case.prints(content, name != 'stdout')
    else:
        case.files[name] = content


def case_of(subject, words, text):
    """The case of a text, which begins with the name. Where it tells no command it has these words."""
    told_first, *parts = text.split('\n--- ')
    name, *lines = told_first.splitlines()
    case = Case(name, subject, list(words))
    for line in lines:
        if line and not line.startswith('#'):
            told(case, line)
    for part in parts:
        told_of_part(case, part)
    return case


def cases_of_list(subject, text):
    """The cases of a file of many."""
    head, *texts = text.split('\n=== ')
    words = []
    for line in head.splitlines():
        if line.startswith('$'):
            words = words_of(line[1:])
        elif line and not line.startswith('#'):
            raise Malformed('%s: this is no line of a head: %s' % (subject, line))
    for each in texts:
        yield case_of(subject, words, each)


def without_head(source):
    """A program without its head comment."""
    lines = source.splitlines(keepends=True)
    while lines and lines[0].startswith(b'--'):
        del lines[0]
    return b''.join(lines)


def case_of_program(subject, text):
    """The case of a program that has a file of its own: the head comment tells it."""
    head = []
    for line in text.splitlines():
        if not line.startswith('--'):
            break
        head.append(line[2:].removeprefix(' '))
    if not head or not head[0].startswith('=== '):
        raise Malformed('%s: a program begins with its name' % subject)
    case = case_of(subject, [], '\n'.join(head).removeprefix('=== '))
    case.files['f.sa'] = text.encode()
    return case


def read(root=TABLE):
    """Each case of the table in the folder `root`, in the order of its folders and files."""
    for folder in sorted(entry.name for entry in os.scandir(root) if entry.is_dir()):
        for file in sorted(os.listdir(os.path.join(root, folder))):
            with open(os.path.join(root, folder, file), encoding='ascii', newline='\n') as opened:
                text = opened.read()
            subject, ending = os.path.splitext(os.path.join(folder, file))
            if ending == '.txt':
                yield from cases_of_list(subject, text)
            elif ending == '.sa':
                yield case_of_program(subject, text)
            else:
                raise Malformed('%s is neither a list of cases nor a program' % file)
