// Variables and calls as pictures, from the observer's stream: a box for each call, a cell for each value; what has none is hatched.
import { $, around, element, number, text } from './dom.js';
import { askMachine, askWhy } from './asking.js';
import { input, isOpen, program, session } from './session.js';
import { Story, describe, follow, isInScope, paths } from './trace.js';
import { FORMS, treeOf } from './forms.js';
import { linesOf } from './table.js';
import { showCalls } from './stack.js';
import * as joined from './joined.js';

const TICKS = 50000, EVENTS = 100000, CELLS = 64, FAR = 2e6;      // FAR: instructions up to which the machine is followed
let story, events = [], known = { turn: -1 };

// The events over the input that is known; those behind a read of what is not known yet are left out.
export async function eventsOf(max = TICKS) {
  const got = await askWhy('trace', ...program(), input(), isOpen() ? 1 : 0, max, 0);
  if (!got.answer || got.answer.status === 1 && got.answer.message !== '') return undefined;
  return text(got.answer.output).split('\n', EVENTS).filter(Boolean).map(line => JSON.parse(line));
}

async function load() {
  const turn = session.turn, given = input().length;
  if (known.turn === turn && known.given === given) return story !== undefined;
  const told = await eventsOf(), tree = await treeOf(FORMS.tree), typed = await treeOf(FORMS.typed);
  if (turn !== session.turn) return false;
  known = { turn, given };
  story = told && tree?.tree && typed?.tree ? new Story(told, describe(tree.tree, typed.tree)) : undefined;
  events = told ?? [];
  $('event').max = events.length;
  if (!story) $('event-says').textContent = 'The observer cannot be had here.';
  return story !== undefined;
}

// ---- pictures

function cell(object, path, name) {
  const at = path.join(','), value = object.cells.get(at), isSet = value !== undefined, isNew = story.changed?.object === object && story.changed.path === at;
  const words = isSet ? String(value) : object.isUntold ? '…' : '?';
  const kind = isSet ? object.isDoubtful ? 'doubtful' : 'set' : object.isUntold ? 'untold' : 'unset';
  const says = { set: words, doubtful: `${words}, or another value: a call may have changed it`, untold: 'a value that is not told', unset: 'indeterminate' }[kind];
  return element('td', words, { className: `cell ${kind}${isNew ? ' new' : ''}`, title: `${name}${path.map(k => `[${k}]`).join('')}: ${says}`, ariaLabel: says });
}

function arrayRows(object) {
  const last = object.dims.at(-1), outer = object.dims.slice(0, -1), shown = Math.min(last, CELLS);
  return paths(outer).slice(0, CELLS).map(path => {
    const label = element('th', `${object.name}${path.map(k => `[${k}]`).join('')}`, { scope: 'row' });
    const made = around('tr', [label, ...Array.from({ length: shown }, (_, k) => cell(object, [...path, k], object.name))]);
    if (last > shown) made.append(element('td', `… ${last - shown} more`));
    return made;
  });
}

// An array parameter, or an object whose type is not known: what was told of it.
function toldRows(object) {
  const label = element('th', object.name, { scope: 'row' });
  if (object.of) return [around('tr', [label, element('td', `the array ${object.of.name}`, { colSpan: 4 })])];
  return [around('tr', [label, ...[...object.cells.keys()].slice(0, CELLS).map(path => cell(object, path === '' ? [] : path.split(',').map(Number), object.name)), ...(object.cells.size === 0 ? [element('td', 'an array of the caller')] : [])])];
}

function rowsOf(object) {
  if (object.isArray || object.dims === undefined) return toldRows(object);
  if (object.dims.length > 0) return arrayRows(object);
  return [around('tr', [element('th', object.name, { scope: 'row' }), cell(object, [], object.name), element('td', object.type, { className: 'type' })])];
}

function box(title, objects, place) {
  const made = document.createElement('section'), where = place ? element('button', `${place.file}:${place.line}`, { type: 'button', className: 'place', onclick: () => joined.mark(place, 'variables') }) : '';
  made.className = 'frame';
  made.append(around('h3', [title, ' ', where]));
  const body = around('table', objects.flatMap(rowsOf));
  if (objects.length > 0) made.append(around('div', [body], { className: 'across' }));
  return made;
}

const wording = { enter: one => `${one.function} is entered`, leave: one => `${one.function} is left${one.value === null ? '' : ` with ${one.value}`}`,
  statement: one => `line ${one.line} of ${one.file} begins`, set: one => `${one.name}${one.path.map(k => `[${k}]`).join('')} = ${one.value}`,
  further: one => `${one.name} has further values`, put: one => `the byte ${one.byte} is put`, get: one => one.byte === null ? 'the input is at its end' : `the byte ${one.byte} is got` };

function showAt(count) {
  story.to(count);
  const last = count > 0 ? story.event(count - 1) : undefined;
  $('event').value = count;
  $('event-says').textContent = `Event ${number(count)} of ${number(story.length)}${last ? `: ${wording[last.event]?.(last) ?? last.event}` : ''}.`;
  const boxes = story.calls.toReversed().map(call => box(call.name, call.objects.filter(one => isInScope(one, call.place)), call.place));
  const statics = story.statics.filter(one => one.name !== undefined);
  $('pictures').replaceChildren(...boxes, ...(statics.length > 0 ? [box('static objects', statics)] : []));
  showCalls(story.calls.map(call => call.name));
}

// The line in which the story stands.
const placeNow = () => story?.calls.at(-1)?.place;

// ---- beside the machine

// The places at which statements begin to which the machine came, as `follow` takes them.
async function arrivals() {
  const halts = new Map();
  for (const one of session.table.functions) {
    for (const line of linesOf(one)) halts.set(line.address, { file: line.file, line: line.line });
    halts.set(one.address, { enters: one.name });
  }
  const addresses = [...halts.keys()], got = await askMachine('arrivals', session.file, addresses, session.seen.steps);
  return got.answer?.map(k => halts.get(addresses[k]));
}

// Shows the abstract machine where the machine stands, as far as the two can be laid side by side by the places that both come to.
export async function beside() {
  if ($('variables').hidden && $('frames').hidden || !session.seen || !session.file) return;
  const turn = session.turn;
  if (!await load() || turn !== session.turn) return;
  const met = session.seen.steps <= FAR ? await arrivals() : undefined;
  if (turn !== session.turn) return;
  const count = met && follow(events, met);
  if (count === undefined) {
    $('beside').textContent = session.seen.steps > FAR ? 'The machine is too far from its start to be followed.' : 'The machine is at a place that the events told do not have: the picture stays.';
    return showAt(Number($('event').value));
  }
  $('beside').textContent = 'As the abstract machine has it where it comes to the same line.';
  showAt(session.seen.outcome === 1 ? story.length : count);
}

export function nudge(by) {
  if (!story) return;
  const to = Math.max(0, Math.min(story.length, Number($('event').value) + by));
  $('beside').textContent = 'By itself: the machine stays where it is.';
  showAt(to);
  joined.mark(placeNow(), 'variables');
}

export function begin() {
  $('event').oninput = () => nudge(0);
  $('event-less').onclick = () => nudge(-1);
  $('event-more').onclick = () => nudge(1);
}

export function forget() {
  story = undefined;
  known = { turn: -1 };
  for (const id of ['pictures', 'calls']) $(id).replaceChildren();
  for (const id of ['event-says', 'beside', 'weights']) $(id).textContent = '';
}
