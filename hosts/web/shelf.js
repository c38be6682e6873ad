// The classes of the library, which a button puts behind the program, and takes out again.
'use strict';

// Where a file of the library stands in a source as it is: from which place to which, or null.
function standsAt(source, {text}) {
  const at = `\n${source}`.indexOf(`\n${text}`);
  return at < 0 ? null : [at, at + text.length];
}

// The lines of a source in which files of the library stand as they are, counted from 1.
function libraryLines(source) {
  const lines = new Set();
  for (const file of LIBRARY) {
    const place = standsAt(source, file);
    if (place) {
      const first = source.slice(0, place[0]).split('\n').length;
      for (let line = first; line < first + file.text.split('\n').length - 1; line += 1) lines.add(line);
    }
  }
  return lines;
}

class Shelf {
  constructor(list, said, editor) {
    [this.said, this.editor] = [said, editor];
    this.buttons = LIBRARY.map((file) => {
      const button = element('button', {type: 'button'}, '');
      button.onclick = () => this.turn(file);
      list.append(element('li', {}, button, ' ', file.does));
      return [file, button];
    });
    this.draw();
  }

  // Names the buttons by what they do now.
  draw() {
    for (const [file, button] of this.buttons) {
      button.textContent = `${standsAt(this.editor.text, file) ? 'Take out' : 'Add'} ${file.name}`;
    }
  }

  // Adds a file that isn't there, and takes out one that is.
  turn(file) {
    const source = this.editor.text;
    const place = standsAt(source, file);
    if (place) this.editor.replace(...place, '');
    else this.editor.replace(source.length, source.length, `${source.endsWith('\n') || !source ? '' : '\n'}${file.text}`);
    this.draw();
    this.said.textContent = place ? `${file.name} is taken out of the program.` : `${file.name} stands behind the program.`;
  }

  add(name) {
    const file = LIBRARY.find((one) => one.name === name);
    if (file && !standsAt(this.editor.text, file)) this.turn(file);
  }
}

if (typeof module !== 'undefined') module.exports = {standsAt};
