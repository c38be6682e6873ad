// The page: picks programs and lessons, runs what stands in the editor, and shows what comes of it. Opened from a file, or packed into a
// folder, it has no server, and shows what was recorded of runs.
'use strict';

const {mode = location.protocol.startsWith('http') ? 'served' : 'file', opens = 'squares'} = document.documentElement.dataset;
const isServed = mode === 'served';
const byId = (id) => document.getElementById(id);
const [picker, about, told, output, ended, hint] = ['example', 'about', 'told', 'output', 'ended', 'hint'].map(byId);
const [runButton, traceButton, stopButton] = ['run', 'trace', 'stop'].map(byId);
const input = byId('input');
const lessonPicker = byId('lesson');

let run = null;           // that is going on
let ran = null;           // the source and the input that the output belongs to, where there is an output
let pictured = {source: '', given: ''};     // those that the picture belongs to
let left = null;          // the bytes that its run put out, where they are known

const ABOUT_OWN = isServed
  ? 'Type a program. Control+Enter runs it.'
  : 'Put a program here, and draw a trace of it.';

const HINTS = {
  served: 'Show iters runs the program beside the server, with its input, and draws each iter that it starts.',
  alone: 'No picture of this program is here. For any program it is drawn by the page that hosts/web/serve serves.',
  untraced: 'The examples and the lessons have a picture of the iters that were alive.',
  none: 'The program has started no iter.',
};

// What is typed is a program of one's own, which is kept while the window is open. It begins as this one.
const [OWN, OF_LESSON] = ['own', 'of-lesson'];
const SECTIONS = [...LESSONS, ...ERRORS];
const MOST_TOLD = 30;     // refusals that are told
const EMPTY = 'class MAIN is\n   main is\n      \n   end;\nend;\n';

const editor = new Editor(byId('source'), byId('lines'), () => {
  tell(told, '');
  keepOwn();
  markOld();
  shelf.draw();
});
const shelf = new Shelf(byId('shelf'), byId('added'), editor);
const reader = new Reader(byId('reading'), (program) => put(OF_LESSON, program, 'A program of the section that is open.'), closeReader);
const picture = new Picture(byId('picture'), (event, next) => {
  const isHere = !event.file.endsWith('prelude');
  byId('event-line').replaceChildren(lineNode(isHere ? pictured.source.split('\n')[event.line - 1] ?? '' : ''));
  if (editor.text === pictured.source && isHere) editor.mark('is-event', {line: event.line});
  else editor.clearMarks('is-event');
  if (left && !run) showOutput(left, event.shown, next?.shown ?? left.length);
});

// Shows an output, of which the bytes from `before` to `now` are those put out in the time of an event.
function showOutput(bytes, before, now) {
  const part = (from, to) => new TextDecoder().decode(bytes.subarray(from, to));
  const piece = spanOf('is-now', part(before, now));
  output.replaceChildren(part(0, before), piece, spanOf('is-to-come', part(now)));
  const [top, height] = [piece.offsetTop - output.offsetTop, piece.offsetHeight];
  if (top < output.scrollTop) output.scrollTop = top;
  else if (top + height > output.scrollTop + output.clientHeight) output.scrollTop = top + height - output.clientHeight;
}

// What was changed since something was made of a source and an input, in words; nothing where nothing was.
function changedSince({source, given}) {
  if (editor.text !== source) return 'the program before it was changed';
  return input.value === given ? '' : 'the program with the input before it was changed';
}

// Says where the output and the picture are those of another source or input than the page has now.
function markOld() {
  const hasOutput = ran && (output.textContent || ended.textContent);
  const [ofOutput, ofPicture] = [hasOutput ? changedSince(ran) : '', changedSince(pictured)];
  tell(byId('old'), ofOutput && `This is the output of ${ofOutput}.`);
  tell(byId('stale'), ofPicture && `This is the picture of ${ofPicture}.`);
  byId('old').hidden = !ofOutput;
  byId('stale').hidden = !ofPicture;
  output.classList.toggle('is-old', Boolean(ofOutput));
}

// What the window keeps. A frame may be one that keeps nothing.
function kept(store, name, value) {
  try {
    if (value !== undefined) window[store].setItem(name, value);
    return window[store].getItem(name);
  } catch {
    return null;
  }
}

// Keeps what was typed.
function keepOwn() {
  kept('sessionStorage', 'source', editor.text);
  kept('sessionStorage', 'input', input.value);
  if (!reader.isOpen && location.hash !== `#${OWN}`) history.replaceState(null, '', `#${OWN}`);
  if (picker.value !== OWN) {
    picker.value = OWN;
    about.textContent = ABOUT_OWN;
  }
}

function ownProgram() {
  const [source, given] = ['source', 'input'].map((name) => kept('sessionStorage', name));
  return {source: source ?? EMPTY, input: given ?? ''};
}

function tell(where, text, isWrong) {
  where.textContent = text;
  where.classList.toggle('is-wrong', Boolean(isWrong));
}

// Marks the places of refusals or of a fault, and says what they mean. In classes of the library that stand as they are, those alone
// are told that nothing else explains: `check --all` finds some in a class that the program doesn't use.
function tellRefusals(lines) {
  const all = readRefusals(lines);
  if (!all.length) return tell(told, lines, true);
  const ofLibrary = libraryLines(editor.text);
  const own = all.filter((one) => !isOfPrelude(one) && !ofLibrary.has(one.line));
  const shown = (own.length ? own : all).sort((one, other) => one.line - other.line);
  const rows = new Map();
  for (const refusal of shown.filter((one) => !isOfPrelude(one))) {
    const {line, code, text} = refusal;
    const row = rows.get(line) ?? {line, note: '', places: []};
    const place = placeIn(editor.texts[line - 1] ?? '', refusal);
    rows.set(line, {line, note: `${row.note}${row.note && ', '}${code}: ${text}`, places: place ? [...row.places, place] : row.places});
  }
  editor.mark('is-refused', ...rows.values());
  tell(told, '', true);
  const goTo = (refusal) => editor.goTo(refusal.line, placeIn(editor.texts[refusal.line - 1] ?? '', refusal)?.[0]);
  const list = element('ul', {}, ...shown.slice(0, MOST_TOLD).map((one) => refusalNode(one, {goTo, add: (name) => shelf.add(name)})));
  told.append(list, ...(shown.length > MOST_TOLD ? [`And ${shown.length - MOST_TOLD} more.`] : []));
  return undefined;
}

// Takes away what came of the run before. What comes now belongs to this source and this input.
function clear(source, given) {
  editor.clearMarks();
  tell(told, '');
  tell(ended, '');
  output.textContent = '';
  ran = {source, given};
  markOld();
}

// Does what takes time with the source and the input, with the buttons as they are to be meanwhile.
async function busy(work) {
  if (runButton.disabled) return;
  const focused = document.activeElement;
  const [source, given] = [editor.text, input.value];
  [runButton.disabled, traceButton.disabled] = [true, true];
  clear(source, given);
  try {
    await work(source, given);
  } catch (error) {
    tell(told, error instanceof TypeError ? 'The server of this page is away.' : error.message, true);
  }
  [runButton.disabled, traceButton.disabled, stopButton.disabled] = [false, false, true];
  if (document.activeElement === document.body) focused.focus();
}

async function runHere(source, given) {
  tell(ended, 'Compiling.');
  const {module, lines} = await compile(source);
  if (!module) {
    tell(ended, '');
    return tellRefusals(await refusalsThere(source) || lines);
  }
  tell(ended, 'Running.');
  run = new Run(module, given, (text) => output.append(text));
  stopButton.disabled = false;
  const how = await run.ended;
  run = null;
  stopButton.disabled = true;
  tell(ended, wordsOfEnd(how), how.cause);
  // A module tells the number of a fault; the program tells its line.
  if (how.cause?.startsWith('stop ')) tellRefusals(await linesThere(source, given));
  return undefined;
}

async function showIters(source, given) {
  tell(ended, 'Running.');
  const told = await traceThere(source, given);
  const trace = readTrace(told.lines, told.shown);
  tell(ended, told.status === null ? wordsOfCut(trace.events.length) : '');
  output.textContent = new TextDecoder().decode(told.output);
  const isRefused = readRefusals(told.lines)[0]?.code.startsWith('E');
  draw({source, given}, isRefused ? {events: []} : trace, told.output);
  if (isRefused) hint.textContent = HINTS.served;
  const words = trace.others.length ? await (isRefused ? refusalsThere(source) : linesThere(source, given)) : '';
  if (trace.others.length) tellRefusals(words || trace.others.join('\n'));
  if (trace.events.length) picture.take();
}

// What is told of a traced run that the server has ended.
function wordsOfCut(count) {
  return count ? `Stopped: the picture has its first ${count} events.` : `Stopped: it was running for ${RUN_SECONDS} seconds.`;
}

// The call of an iter in a line of a source: its name and its text. Of several the place among the line's calls tells which. A bound iter
// has the name of what is bound, where the source says it.
function callAt(source, line, place) {
  const calls = iterCalls(source.split('\n')[line - 1] ?? '').filter(({name}) => !['while!', 'until!', 'break!'].includes(name));
  const call = calls[place % calls.length] ?? {name: 'iter', text: ''};
  const bound = /^(\w+)\.call!/.exec(call.text);
  return {...call, name: (bound && boundTo(source, bound[1])) || call.name};
}

// Draws the events of a trace of a source and an input, beside the output of the same run where that is known.
function draw(program, trace, bytes = null) {
  const calls = new Map();
  const callOf = (file, line, place) => {
    if (file.endsWith('prelude')) return {name: 'iter', text: ''};
    const key = `${line} ${place}`;
    if (!calls.has(key)) calls.set(key, callAt(program.source, line, place));
    return calls.get(key);
  };
  hint.textContent = HINTS.none;
  [pictured, left] = [program, bytes];
  markOld();
  picture.show(trace.events, callOf);
}

// Puts a program into the page, with what was recorded of it.
function put(name, example, words) {
  const {source, input: given = '', output: putOut = '', trace = '', shown = []} = example;
  run?.stop();
  picker.value = name;
  editor.text = source;
  input.value = given;
  clear(source, given);
  about.textContent = words;
  shelf.draw();
  if (!isServed) output.textContent = putOut;
  draw({source, given}, readTrace(trace, shown), new TextEncoder().encode(putOut));
  if (!trace) hint.textContent = isServed ? HINTS.served : HINTS.alone;
  if (example.isCut) tell(ended, `The picture has the first ${picture.events.length} events of the run.`);
  if (example.told && !isServed) tellRefusals(example.told);
  document.querySelector('.editor').scrollTo(0, 0);
}

function pick(name) {
  if (name === OWN) {
    put(OWN, ownProgram(), ABOUT_OWN);
    if (editor.text === EMPTY) editor.area.selectionStart = editor.area.selectionEnd = EMPTY.indexOf('\n   end');
  } else {
    const example = EXAMPLES.find((one) => one.name === name) ?? EXAMPLES[0];
    put(example.name, example, example.shows ? `Shows ${example.shows}.` : example.does);
  }
}

// Shows a section beside the editor. The first program of a lesson comes with it where the page has none yet.
function read(section) {
  const isLesson = LESSONS.includes(section);
  const first = isLesson && section.parts.find((part) => part.program);
  if (!editor.text && first) reader.put(first.program);
  else if (!editor.text) pick(kept('sessionStorage', 'source') === null ? opens : OWN);
  const takesFocus = document.activeElement !== lessonPicker && document.activeElement !== document.body;
  lessonPicker.value = isLesson ? section.name : '';
  reader.show(section, isLesson ? LESSONS : ERRORS, takesFocus);
}

function closeReader() {
  reader.hide();
  lessonPicker.value = '';
  lessonPicker.focus();
  history.replaceState(null, '', picker.value === OF_LESSON ? location.pathname + location.search : `#${picker.value}`);
}

// Shows what the address asks for: a section, a program that it has in itself, or an example.
async function follow() {
  const fragment = location.hash.slice(1);
  const section = SECTIONS.find(({name}) => name === (fragment || opens));
  if (section) return read(section);
  if (!fragment.startsWith(OF_SOURCE)) return pick(fragment || opens);
  try {
    put(OWN, await programOf(fragment), 'This program came with the address.');
  } catch {
    if (!editor.text) pick(opens);
    tell(told, 'The address holds a program, but not all of it.', true);
  }
  return undefined;
}

// Puts the address of what is in the editor into the address of the page, and where that is allowed into the clipboard.
async function copyLink() {
  const {source, given} = {source: editor.text, given: input.value};
  const example = EXAMPLES.find((one) => one.source === source && one.input === given);
  const link = new URL(`#${example ? example.name : await fragmentOf(source, given)}`, location.href);
  history.replaceState(null, '', link.href);
  byId('link').value = link.href;
  try {
    await navigator.clipboard.writeText(link.href);
    byId('link').hidden = true;
    tell(byId('copied'), 'The link is copied.');
  } catch {
    byId('link').hidden = false;
    byId('link').select();
    tell(byId('copied'), 'Here is the link:');
  }
}

function enlarge(isLarge) {
  document.documentElement.toggleAttribute('data-large', isLarge);
  byId('large').setAttribute('aria-pressed', String(isLarge));
  picture.draw();
}

// Draws what was recorded of a run of the source.
function drawRecorded(text) {
  const recorded = partRecorded(text);
  const trace = readTrace(recorded.lines, recorded.shown);
  const program = {source: editor.text, given: input.value};
  tell(told, '');
  if (recorded.output) ran = program;
  draw(program, trace, recorded.output);
  if (trace.events.length === 0) hint.textContent = 'No line of it tells an event.';
  if (trace.others.length) tellRefusals(trace.others.join('\n'));
  if (trace.events.length) picture.take();
}

input.oninput = () => {
  if (picker.value === OWN) keepOwn();
  markOld();
};
const ofLesson = new Option('a program of a section', OF_LESSON);
ofLesson.hidden = true;
picker.append(new Option('a program of your own', OWN), ofLesson, ...EXAMPLES.map(({name, does}) => new Option(`${name}: ${does}`, name)));
picker.onchange = () => {
  history.replaceState(null, '', `#${picker.value}`);
  reader.hide();
  lessonPicker.value = '';
  pick(picker.value);
};
lessonPicker.append(new Option('none', ''), ...LESSONS.map(({name, title}) => new Option(title, name)));
lessonPicker.onchange = () => {
  if (lessonPicker.value) location.hash = lessonPicker.value;
  else closeReader();
};
addEventListener('hashchange', follow);
byId('copy').onclick = copyLink;
byId('large').onclick = () => {
  const isLarge = byId('large').getAttribute('aria-pressed') !== 'true';
  kept('localStorage', 'large', String(isLarge));
  enlarge(isLarge);
};
runButton.onclick = () => busy(runHere);
traceButton.onclick = () => busy(showIters);
stopButton.onclick = () => run?.stop();
byId('draw').onclick = () => drawRecorded(byId('recorded').value);
byId('file').onchange = async ({target}) => drawRecorded(await target.files[0].text());
addEventListener('keydown', (event) => {
  if (event.key !== 'Enter' || !(event.ctrlKey || event.metaKey) || !isServed) return;
  event.preventDefault();
  busy(event.shiftKey && !traceButton.hidden ? showIters : runHere);
});
if (!isServed) {
  document.querySelector('header .actions').hidden = true;
  byId('alone').hidden = false;
  byId('contents').hidden = mode !== 'packed';
}
// Iters are shown where the program can trace them.
async function showKnown() {
  const {trace} = await (await fetch('knows')).json();
  traceButton.hidden = !trace;
  if (trace) return;
  if (hint.textContent === HINTS.served) hint.textContent = HINTS.untraced;
  HINTS.served = HINTS.untraced;
}

// What the address wishes besides.
async function begin() {
  document.documentElement.toggleAttribute('data-embed', WISHES.has('embed'));
  document.documentElement.toggleAttribute('data-lanes', WISHES.has('lanes'));
  byId('whole').hidden = !WISHES.has('embed');
  byId('whole').href = `${location.pathname}${location.hash}`;
  enlarge(WISHES.has('large') || kept('localStorage', 'large') === 'true');
  await follow();
  if (WISHES.has('event')) picture.go(Number(WISHES.get('event')) - 1);
}

begin();
if (isServed) showKnown();
