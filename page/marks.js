// What is marked in the source: the line that is next, the line of what is selected in a form, and parts of lines. It lies behind the
// editor's text, line by line, in the same letters.
import { $, element } from './dom.js';

let lines = [], spans = [], file = '', next, joined, faulty = 0;

const encoder = new TextEncoder();

// The index in a line's text of a column, which counts bytes from 1.
export function indexOf(line, column) {
  let bytes = 1, index = 0;
  for (const letter of line) {
    if (bytes >= column) break;
    bytes += encoder.encode(letter).length;
    index += letter.length;
  }
  return index;
}

const here = (place, line) => place !== undefined && place.file === file && place.line === line;

function mark(said) {
  return element('span', said.words, { className: `mark ${said.kind}`, title: said.text });
}

// A line cut at its marks: those that begin before the end of the one before are left out.
function cut(line, number) {
  const parts = [], found = spans.filter(one => one.file === file && one.line === number).sort((a, b) => a.column - b.column);
  let at = 0;
  for (const one of found) {
    const from = indexOf(line, one.column), to = Math.max(from + 1, indexOf(line, one.end ?? one.column + 1));
    if (from < at) continue;
    parts.push(line.slice(at, from), mark({ ...one, words: line.slice(from, to) || ' ' }));
    at = to;
  }
  parts.push(line.slice(at) + '\n');
  return parts;
}

// Draws the text of a file anew.
export function draw(name, text) {
  [file, lines] = [name, text.split('\n')];
  $('marks').replaceChildren(...lines.map((line, k) => {
    const made = document.createElement('div');
    made.append(...cut(line, k + 1));
    return made;
  }));
  $('lines').replaceChildren(...lines.map((_, k) => element('span', `${k + 1}`)));
  paint();
}

function paint() {
  for (const [k, made] of [...$('marks').children].entries()) {
    const numbered = $('lines').children[k];
    for (const [name, on] of [['next', here(next, k + 1)], ['joined', here(joined, k + 1)], ['faulty', faulty === k + 1]]) {
      made.classList.toggle(name, on);
      numbered.classList.toggle(name, on);
    }
  }
}

export function setNext(place) { next = place; paint(); }
export function setJoined(place) { joined = place; paint(); }
export function setFaulty(line) { faulty = line; paint(); }
export const nextPlace = () => next;

export function setSpans(list, text) {
  spans = list;
  draw(file, text);
}

// The mark under a point of the window.
export function markAt(x, y) {
  for (const one of $('marks').querySelectorAll('.mark')) {
    const box = one.getBoundingClientRect();
    if (x >= box.left && x <= box.right && y >= box.top && y <= box.bottom) return one;
  }
  return undefined;
}
