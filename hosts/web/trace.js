// Reads the lines of `sather run --trace`, and tells the life of each instance of an iter.
//
// A column stands for an event, and for the time from it to the next one. Control is always in one place: at the top of the stack of
// those that run. A start and a resumption put an instance on it, a yield and a quit take it off.
'use strict';

const EVENT = /^(start|resume|yield|quit|abandon) (.+):(\d+) (\d+)$/;
const RECORDED = /^(.*?)((?:start|resume|yield|quit|abandon) \S+:\d+ \d+|^\S+:\d+: fault: .*)\r?\n?$/;

// The events of a trace, and the lines that are none. `shown` has for each line how many bytes of the output stand before it.
function readTrace(text, shown = []) {
  const events = [];
  const others = [];
  text.split('\n').forEach((line, place) => {
    const found = EVENT.exec(line);
    if (found) {
      const [, kind, file, inLine, number] = found;
      events.push({kind, file, line: Number(inLine), number: Number(number), shown: shown[place]});
    } else if (line) {
      others.push(line);
    }
  });
  return {events, others};
}

// What a terminal shows of a traced run, or its lines alone, as the lines and the output, and of each line how many bytes of the output
// stand before it.
function partRecorded(text) {
  const encoder = new TextEncoder();
  const [lines, shown] = [[], []];
  let [output, size] = ['', 0];
  for (const line of text.split(/(?<=\n)/)) {
    const found = RECORDED.exec(line);
    const put = found ? found[1] : line;
    output += put;
    size += encoder.encode(put).length;
    if (found) {
      lines.push(found[2]);
      shown.push(size);
    }
  }
  return {lines: lines.join('\n'), shown, output: output.trim() ? encoder.encode(output) : null};
}

// The lives of the instances of a trace. `lives[0]` is the program's own. `callOf(file, line, place)` is the call in a line with this
// place among the line's calls: the name of its iter and its text.
//
// A life has its number, file, line, name and call; the life `inside` that has its loop; its first and last column, the latter where it
// has ended; `ended`, the kind of its last event; its depth; the columns in which it was resumed and has yielded; and `spans`, the states
// that it was in, each from a column on.
function readLives(events, callOf) {
  const program = {
    number: -1, name: 'main', call: '', inside: null, first: 0, last: null, ended: null, depth: 0, resumed: [], yielded: [], spans: [],
  };
  const lives = [program];
  const byNumber = new Map();
  const stack = [program];
  const alive = new Map();

  program.spans.push({from: 0, state: 'running'});
  const enter = (life, state, column) => {
    const before = life.spans.at(-1);
    if (before && before.from === column) before.state = state;
    else life.spans.push({from: column, state});
  };
  const leave = (life, column) => {
    const place = stack.lastIndexOf(life);
    if (place > 0) stack.length = place;
    enter(stack.at(-1), 'running', column);
  };
  const begin = (event, column) => {
    const inside = stack.at(-1);
    const site = `${inside.number} ${event.file}:${event.line}`;
    const place = alive.get(site) ?? 0;
    alive.set(site, place + 1);
    const {name, text} = callOf(event.file, event.line, place);
    const life = {
      number: event.number, file: event.file, line: event.line, name, call: text, site, inside, first: column, last: null, ended: null,
      depth: inside.depth + 1, resumed: [], yielded: [], spans: [],
    };
    lives.push(life);
    byNumber.set(event.number, life);
    return life;
  };

  events.forEach((event, column) => {
    const life = event.kind === 'start' ? begin(event, column) : byNumber.get(event.number);
    if (!life) return;
    event.life = life;
    event.from = stack.at(-1);
    if (event.kind === 'resume') life.resumed.push(column);
    if (event.kind === 'yield') life.yielded.push(column);
    if (event.kind === 'start' || event.kind === 'resume') {
      enter(stack.at(-1), 'waiting', column);
      enter(life, 'running', column);
      stack.push(life);
      return;
    }
    leave(life, column);
    event.to = stack.at(-1);
    if (event.kind === 'yield') {
      enter(life, 'suspended', column);
    } else {
      life.last = column;
      life.ended = event.kind;
      alive.set(life.site, alive.get(life.site) - 1);
    }
  });
  return lives;
}

// The state of a life at a column, or null where it isn't alive.
function stateAt(life, column) {
  if (column < life.first || (life.last !== null && column >= life.last)) return null;
  let [low, high] = [0, life.spans.length - 1];
  while (low < high) {
    const middle = (low + high + 1) >> 1;
    if (life.spans[middle].from <= column) low = middle;
    else high = middle - 1;
  }
  return life.spans[low].state;
}

// How many instances are alive after each event.
function countAlive(events) {
  let count = 0;
  return events.map(({kind}) => {
    count += kind === 'start' ? 1 : kind === 'quit' || kind === 'abandon' ? -1 : 0;
    return count;
  });
}

if (typeof module !== 'undefined') module.exports = {readTrace, partRecorded, readLives, stateAt, countAlive};
