// What is said of a program at its places: the fault and further ones, warnings, what verifying shows, undefined acts. A list under the
// editor has all; each with a column is marked in the source.
import { $, around, button, element } from './dom.js';
import * as sources from './sources.js';
import { setFaulty, setSpans } from './marks.js';

const ABOVE = 6, LINE = 20;      // pixels: above the first line, and of a line
const GROUPS = { fault: 'Fault', run: 'Undefined', verify: 'May be undefined', warning: 'Warning' };
const groups = new Map();
let shownSpans = [], fault, mended = () => {};

const at = ({ file, line, column }) => `${file}:${line}${column ? `:${column}` : ''}`;
const values = one => one.notes.filter(note => note.topic === 'value').map(note => note.text).join('; ');
const saidOf = one => `${one.code} ${one.text}${one.token ? ` '${one.token}'` : ''}${values(one) ? ` (${values(one)})` : ''}`;

// The lines of JSON that the library answers.
export const parse = text => text.split('\n').filter(Boolean).map(line => JSON.parse(line));

// The line that a phase tells: FILE:LINE: CODE TEXT.
export function ofLine(line) {
  const found = /^([^:\n]*):(\d+): (?:(\d+) )?(.*)\n$/.exec(line);
  return found && { file: found[1], line: Math.max(1, Number(found[2])), column: null, end: null, code: found[3] ?? '', text: found[4], token: '', notes: [] };
}

function note(one) {
  const place = one.file === undefined ? [] : [button(at(one), () => sources.goTo(one), { className: 'place' }), ': '];
  return around('li', [...place, one.text]);
}

function item(kind, one) {
  const made = document.createElement('li');
  made.className = kind;
  made.append(`${GROUPS[kind]}: `);
  if (one.line > 0) made.append(button(at(one), () => sources.goTo(one), { className: 'place' }), ' ');
  made.append(element('span', saidOf(one)));
  if (one.fix) made.append(' ', button(`Change to ${one.fix.text}`, () => { sources.choose(0); sources.goTo(one); sources.replace(one.fix); mended(); }));
  const notes = one.notes.filter(part => part.topic !== 'value');
  if (notes.length > 0) made.append(around('ul', notes.map(note)));
  return made;
}

function show() {
  const all = [...groups].flatMap(([kind, list]) => list.map(one => [kind, one]));
  $('findings').replaceChildren(...all.map(([kind, one]) => item(kind, one)));
  $('findings-part').hidden = all.length === 0;
  const spans = all.filter(([, one]) => one.column).map(([kind, one]) => ({ ...one, kind, text: saidOf(one) }));
  fault = groups.get('fault')?.[0] ?? groups.get('run')?.[0];
  setSpans([...spans, ...shownSpans], sources.shownText());
  place();
}

// The fault, or the undefined act, under its line.
export function place() {
  const here = fault !== undefined && fault.line > 0 && fault.file === sources.shownName();
  $('fault').hidden = !here;
  $('to-fault').hidden = !fault || !sources.has(fault.file);
  $('source').setAttribute('aria-invalid', String(here && groups.get('fault')?.length > 0));
  setFaulty(here ? fault.line : 0);
  if (!here) return;
  const notes = fault.notes.filter(one => one.topic !== 'value').map(one => one.text).slice(0, 2);
  $('fault').textContent = [saidOf(fault), ...notes].join('\n');
  $('fault').style.top = `${ABOVE + LINE * fault.line - $('source').scrollTop}px`;
}

export function set(kind, list) {
  groups.set(kind, list);
  if (list.length === 0) groups.delete(kind);
  show();
}

// Marks that are no findings: the operators that were shown.
export function setShown(spans) {
  shownSpans = spans;
  show();
}

export function clear() {
  groups.clear();
  shownSpans = [];
  show();
}

export const toFault = () => sources.goTo(fault);
export const count = kind => groups.get(kind)?.length ?? 0;

// `whenMended` is called when a fix was put into the source.
export function begin(whenMended) {
  mended = whenMended;
  groups.clear();
}
