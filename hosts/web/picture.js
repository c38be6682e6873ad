// Draws the lives of instances: a lane for each, inside the lane of the one that has its loop, from its start to its end. Columns are
// events. A cursor stands on one of them, and the picture follows it.
'use strict';

const [COLUMN, WIDEST] = [20, 40];  // pixels of an event, where there are many and where there are few
const LANE = 28;                    // pixels of a lane
const TOP = 8;                      // pixels above the lanes
const LETTER = 7.6;                 // pixels of a letter of a label
const HUES = 8;                     // colours of page.css for the places of calls
const BINS = 600;                   // points of the overview
const PLAYED_EVERY = 450;           // milliseconds from event to event
const PLAYED_CALMLY = 1500;         // the same for those who like little to move

function drawn(name, attributes, ...inside) {
  const node = document.createElementNS('http://www.w3.org/2000/svg', name);
  for (const [key, value] of Object.entries(attributes)) node.setAttribute(key, value);
  node.append(...inside);
  return node;
}

function named(life) {
  return life.inside ? `${life.name} ${life.number}` : 'main';
}

// What an event does, in words.
function wordsOfEvent(event) {
  const {life, kind, to} = event;
  const call = `the call in line ${event.line}${event.file.endsWith('prelude') ? ' of the prelude' : ''}`;
  switch (kind) {
    case 'start': return `${call} starts ${named(life)}`;
    case 'resume': return `${call} resumes ${named(life)}`;
    case 'yield': return `${named(life)} yields to ${named(to)}, and is suspended`;
    case 'quit': return `${named(life)} ends, and its loop with it`;
    default: return `${named(life)} is abandoned with its loop`;
  }
}

// The lives in an order in which each is followed by those inside it, and for each the row of the last one inside it.
function rowsOf(lives) {
  const inside = new Map(lives.map((life) => [life, []]));
  for (const life of lives) inside.get(life.inside)?.push(life);
  const rows = new Map();
  const add = (life) => {
    const row = {row: rows.size, last: rows.size};
    rows.set(life, row);
    inside.get(life).forEach(add);
    row.last = rows.size - 1;
  };
  if (lives.length) add(lives[0]);
  return rows;
}

// `stepped` is told the event that the cursor has come to, and the one behind it, if there is one.
class Picture {
  constructor(root, stepped) {
    const find = (name) => root.querySelector(`[data-part="${name}"]`);
    this.root = root;
    this.stepped = stepped;
    [this.lanes, this.overview, this.slider, this.words] = ['lanes', 'overview', 'slider', 'words'].map(find);
    [this.stack, this.about] = ['stack', 'about'].map(find);
    this.playButton = find('play');
    this.events = [];
    find('first').onclick = () => this.go(0);
    find('back').onclick = () => this.go(this.at - 1);
    find('forward').onclick = () => this.go(this.at + 1);
    find('last').onclick = () => this.go(this.events.length - 1);
    this.playButton.onclick = () => this.play(!this.playing);
    this.slider.oninput = () => this.go(Number(this.slider.value));
    this.lanes.onclick = (event) => this.goTo(event);
    this.lanes.onkeydown = (event) => this.goByKey(event);
    new ResizeObserver(() => this.draw()).observe(this.lanes);
  }

  // Shows the events of a trace, from the first one on.
  show(events, callOf) {
    this.play(false);
    this.events = events;
    this.lives = readLives(events, callOf);
    this.chosen = null;
    this.alive = countAlive(events);
    this.hues = new Map();
    for (const {file, line, name} of this.lives.slice(1)) {
      const place = `${file}:${line} ${name}`;
      if (!this.hues.has(place)) this.hues.set(place, this.hues.size % HUES);
    }
    this.root.dataset.state = events.length ? 'shown' : 'empty';
    this.slider.max = Math.max(events.length - 1, 0);
    this.drawOverview();
    this.at = -1;
    this.lanes.scrollTo(0, 0);
    if (events.length) this.go(0);
  }

  hueOf({file, line, name, inside}) {
    return inside ? this.hues.get(`${file}:${line} ${name}`) : 'main';
  }

  go(at) {
    const now = Math.max(0, Math.min(at, this.events.length - 1));
    if (this.events.length === 0 || now === this.at) return;
    this.at = now;
    this.slider.value = now;
    const event = this.events[now];
    const words = `Event ${now + 1} of ${this.events.length}: ${wordsOfEvent(event)}.`;
    this.words.textContent = words;
    this.slider.setAttribute('aria-valuetext', words);
    this.draw();
    this.drawStack();
    this.drawChosen();
    this.stepped(event, this.events[now + 1]);
    if (now === this.events.length - 1) this.play(false);
  }

  goTo(click) {
    const box = this.lanes.getBoundingClientRect();
    const [x, y] = [(click.clientX - box.left) / this.scale, (click.clientY - box.top + this.lanes.scrollTop) / this.scale];
    const column = Math.floor((x - this.labelWidth) / this.column);
    const life = [...this.rows.keys()].find((one) => this.rows.get(one).row === Math.floor((y - TOP) / LANE));
    if (column >= 0) this.go(this.from + column);
    else if (life) this.choose(life);
  }

  // Chooses the instance that is told about. Chosen again it is given up, and that of the event is told about, as at first.
  choose(life) {
    this.chosen = this.chosen === life ? null : life;
    this.draw();
    this.drawStack();
    this.drawChosen();
  }

  // What the events tell of the chosen instance at the time of the cursor.
  drawChosen() {
    const life = this.chosen ?? this.events[this.at].life ?? this.lives[0];
    const past = (columns) => columns.filter((column) => column <= this.at).length;
    const times = (count) => (count === 1 ? 'once' : `${count} times`);
    const state = stateAt(life, this.at) ?? (this.at < life.first ? 'not started yet' : life.ended === 'quit' ? 'ended' : 'abandoned');
    const rows = life.inside ? [
      ['Call', element('code', {}, life.call || life.name), ` in line ${life.line}${life.file.endsWith('prelude') ? ' of the prelude' : ''}`],
      ['In a loop of', named(life.inside)],
      ['Started', `by event ${life.first + 1}`],
      ['Resumed', times(past(life.resumed))],
      ['Has yielded', times(past(life.yielded))],
      ['Now', state],
    ] : [['Now', state]];
    this.about.replaceChildren(
      element('h3', {}, this.chosen ? `${named(life)}, chosen` : named(life)),
      element('dl', {}, ...rows.map(([name, ...what]) => element('div', {}, element('dt', {}, name), element('dd', {}, ...what)))));
  }

  // Keys step in the lanes as they do in the slider.
  goByKey(event) {
    const places = {ArrowLeft: this.at - 1, ArrowRight: this.at + 1, Home: 0, End: this.events.length - 1};
    if (!(event.key in places) || event.altKey || event.ctrlKey || event.metaKey) return;
    event.preventDefault();
    this.go(places[event.key]);
  }

  // Comes into view, and gets the keys.
  take() {
    this.lanes.focus({preventScroll: true});
    if (this.lanes.getBoundingClientRect().bottom > innerHeight) this.root.scrollIntoView();
  }

  play(isOn) {
    clearInterval(this.clock);
    this.playing = isOn;
    this.playButton.setAttribute('aria-pressed', String(isOn));
    this.playButton.textContent = isOn ? 'Pause' : 'Play';
    if (!isOn) return;
    if (this.at === this.events.length - 1) this.go(0);
    const isCalm = matchMedia('(prefers-reduced-motion: reduce)').matches;
    this.clock = setInterval(() => this.go(this.at + 1), isCalm ? PLAYED_CALMLY : PLAYED_EVERY);
  }

  // How many instances are alive at each time, over the whole trace.
  drawOverview() {
    const [count, most] = [this.alive.length, this.alive.reduce((one, other) => Math.max(one, other), 1)];
    const bins = Math.min(count, BINS);
    let path = 'M0 1';
    for (let bin = 0; bin < bins; bin += 1) {
      const part = this.alive.slice(Math.floor((bin * count) / bins), Math.floor(((bin + 1) * count) / bins));
      const height = 1 - (0.9 * Math.max(...part)) / most;
      path += `L${bin / bins} ${height}L${(bin + 1) / bins} ${height}`;
    }
    this.window = drawn('rect', {class: 'window', y: 0, height: 1});
    this.overview.replaceChildren(drawn('path', {class: 'alive', d: `${path}L1 1Z`}), this.window);
  }

  // The instances that run, each called by the one before it, and those that are suspended.
  drawStack() {
    const alive = this.visible.map((life) => [life, stateAt(life, this.at)]).filter(([, state]) => state);
    const focused = this.stack.contains(document.activeElement) ? document.activeElement.life : null;
    const chip = ([life, state]) => {
      const isChosen = this.chosen === life;
      const words = `${named(life)}, ${state}`;
      const button = element('button', {type: 'button', 'aria-pressed': isChosen, 'aria-label': words, 'data-part': 'chip'}, named(life));
      button.onclick = () => this.choose(life);
      if (life === focused) queueMicrotask(() => button.focus({preventScroll: true}));
      button.life = life;
      return element('li', {class: `chip is-${state}${isChosen ? ' is-chosen' : ''} hue-${this.hueOf(life)}`, title: state}, button);
    };
    const running = alive.filter(([, state]) => state !== 'suspended').sort(([one], [other]) => one.depth - other.depth);
    const suspended = alive.filter(([, state]) => state === 'suspended');
    this.stack.replaceChildren(...running.map(chip), ...suspended.map(chip));
  }

  draw() {
    this.scale = parseFloat(getComputedStyle(this.lanes).getPropertyValue('--scale')) || 1;
    const width = this.lanes.clientWidth / this.scale;
    this.labelWidth = width < 560 ? 118 : 176;
    if (this.events.length === 0 || width < this.labelWidth) return;
    const room = width - this.labelWidth;
    this.column = Math.max(COLUMN, Math.min(WIDEST, Math.floor(room / this.events.length)));
    const columns = Math.max(1, Math.floor(room / this.column));
    this.from = Math.max(0, Math.min(this.at - Math.floor(columns * 0.6), this.events.length - columns));
    this.to = Math.min(this.from + columns, this.events.length);
    this.visible = this.lives.filter(({first, last}) => first < this.to && (last === null || last >= this.from));
    this.rows = rowsOf(this.visible);
    const height = TOP + this.rows.size * LANE + 8;
    const columnsInView = this.events.slice(this.from, this.to);
    const chart = drawn('g', {'clip-path': 'url(#chart)'});
    for (const life of this.visible) chart.append(this.lane(life));
    columnsInView.forEach((event, place) => chart.append(this.control(event, this.from + place)));
    columnsInView.forEach((event, place) => chart.append(this.mark(event, this.from + place)));
    const svg = drawn('svg', {
      width: width * this.scale, height: height * this.scale, viewBox: `0 0 ${width} ${height}`, role: 'img', 'aria-label': this.summary(),
    });
    const clip = drawn('rect', {x: this.labelWidth, y: 0, width: width - this.labelWidth, height});
    svg.append(drawn('defs', {}, drawn('clipPath', {id: 'chart'}, clip)));
    svg.append(chart, this.veil(width, height), this.cursor(height), ...this.visible.map((life) => this.label(life)));
    this.lanes.replaceChildren(svg);
    this.window.setAttribute('x', this.from / this.events.length);
    this.window.setAttribute('width', (this.to - this.from) / this.events.length);
    this.follow();
  }

  summary() {
    return `The lanes of ${this.visible.length - 1} instances, events ${this.from + 1} to ${this.to} of ${this.events.length}`;
  }

  // Brings the lane of the event into view.
  follow() {
    const [y, margin] = [this.y(this.events[this.at].life) * this.scale, LANE * this.scale];
    const box = this.lanes;
    if (y < box.scrollTop + margin) box.scrollTop = y - margin;
    else if (y > box.scrollTop + box.clientHeight - margin) box.scrollTop = y - box.clientHeight + margin;
  }

  // The middle of a column and of a lane.
  x(column) {
    return this.labelWidth + (column - this.from + 0.5) * this.column;
  }

  y(life) {
    return TOP + (this.rows.get(life).row + 0.5) * LANE;
  }

  // Where a life ends in the picture.
  end({last}) {
    return last === null ? this.x(this.to) + this.column : this.x(last);
  }

  lane(life) {
    const {row, last} = this.rows.get(life);
    const [left, y] = [Math.max(this.x(life.first), this.x(this.from) - 2 * this.column), this.y(life)];
    const node = drawn('g', {class: `lane hue-${this.hueOf(life)}`, 'data-instance': life.number});
    if (life.inside) {
      node.append(drawn('rect', {
        class: 'around', x: left - 8, y: y - LANE / 2 + 2, width: this.end(life) - left + 16, height: (last - row + 1) * LANE - 4, rx: 9,
      }));
    }
    const spans = life.spans.filter((span, place) => span.from < this.to && (life.spans[place + 1]?.from ?? Infinity) >= this.from);
    for (const span of spans) node.append(this.span(life, span, y));
    return node;
  }

  span(life, span, y) {
    const next = life.spans[life.spans.indexOf(span) + 1];
    const [left, right] = [Math.max(this.x(span.from), this.x(this.from) - this.column), next ? this.x(next.from) : this.end(life)];
    return drawn('line', {class: `span is-${span.state}`, x1: left, x2: right, y1: y, y2: y});
  }

  // The way of control at an event: an arrow from the lane that had it to the one that gets it.
  control({kind, life, from, to}, column) {
    const [source, target] = kind === 'start' || kind === 'resume' ? [from, life] : [life, to];
    if (!source || source === target || from !== source) return drawn('g', {});
    const [x, y1, y2] = [this.x(column), this.y(source), this.y(target)];
    const side = Math.sign(y2 - y1);
    const tip = y2 - 7 * side;
    return drawn('g', {class: `control hue-${this.hueOf(life)}`},
      drawn('line', {x1: x, x2: x, y1, y2: tip}),
      drawn('path', {d: `M${x - 4} ${tip - 5 * side}h8L${x} ${tip}Z`}));
  }

  mark({kind, life}, column) {
    const [x, y] = [this.x(column), this.y(life)];
    const shapes = {
      start: () => drawn('circle', {cx: x, cy: y, r: 6}),
      resume: () => drawn('circle', {cx: x, cy: y, r: 3.5}),
      yield: () => drawn('circle', {cx: x, cy: y, r: 3.5}),
      quit: () => drawn('rect', {x: x - 5.5, y: y - 5.5, width: 11, height: 11, rx: 1.5}),
      abandon: () => drawn('path', {d: `M${x - 5} ${y - 5}l10 10m0 -10l-10 10`}),
    };
    const node = drawn('g', {class: `mark is-${kind} hue-${this.hueOf(life)}`, 'data-column': column}, shapes[kind]());
    node.append(drawn('title', {}, `${column + 1}: ${wordsOfEvent(this.events[column])}`));
    return node;
  }

  cursor(height) {
    return drawn('rect', {class: 'cursor', x: this.x(this.at) - this.column / 2, y: 0, width: this.column, height, rx: 4});
  }

  // What covers the time that is still to come.
  veil(width, height) {
    const left = this.x(this.at) + this.column / 2;
    return drawn('rect', {class: 'veil', x: left, y: 0, width: Math.max(0, width - left), height});
  }

  label(life) {
    const [indent, y, state] = [Math.min(life.depth, 7) * (this.labelWidth < 150 ? 3 : 9), this.y(life), stateAt(life, this.at)];
    const number = life.inside ? String(life.number) : '';
    const room = Math.floor((this.labelWidth - 40 - indent) / LETTER) - number.length;
    const name = life.name.length > room ? `${life.name.slice(0, room - 1)}\u2026` : life.name;
    return drawn('g', {class: `label hue-${this.hueOf(life)} is-${state ?? 'away'}${this.chosen === life ? ' is-chosen' : ''}`},
      drawn('circle', {cx: 9 + indent, cy: y, r: 4}),
      drawn('text', {x: 18 + indent, y: y + 4}, name),
      drawn('text', {class: 'number', x: this.labelWidth - 13, y: y + 4, 'text-anchor': 'end'}, number));
  }
}
