// The listing: each word of the code, with the names of functions, of labels and of static objects, and what a word is.
import { $, button, element, hex, row } from './dom.js';
import { session } from './session.js';
import * as joined from './joined.js';
import { computed, fields, globalPointer, offsetOf, operands, target, withNames } from './words.js';
import { nameAt, placeAt } from './table.js';

const SHOWN = 4000;      // words; a longer listing is the program's to show
let lines = [], rows = new Map(), gp;          // lines: { address, word, says }
let runTo = () => {}, breakAt = () => {};

export function begin(ways) {
  ({ runTo, breakAt } = ways);
  joined.arrows('listing-lines', '.word', one => choose(Number(one.value)));
  $('abi').onchange = showLines;
}

const labelOf = address => nameAt(session.table, address) ?? `.L${hex(address).replace(/^0+/, '')}`;

// An instruction with names: those of registers where they are wanted, the label of a branch, and what it refers to.
function said(k) {
  const line = lines[k], to = target(line), at = computed(lines[k - 1], line, gp);
  const instruction = to === undefined ? line.says : line.says.replace(/-?\d+$/, labelOf(to));
  const name = at === undefined ? undefined : nameAt(session.table, at);
  return `${$('abi').checked ? withNames(instruction) : instruction}${name ? `  # ${name}` : ''}`;
}

function head(name) {
  const made = document.createElement('tr');
  made.className = 'label';
  made.append(element('th', `${name}:`, { colSpan: 3, scope: 'rowgroup' }));
  return made;
}

function wordRow(k) {
  const { address, word } = lines[k], place = placeAt(session.table, address);
  const made = row([button(hex(address), null, { value: k, className: 'word', tabIndex: -1 }), hex(word), element('span', said(k), { title: operands(lines[k]).join('; ') })]);
  if (place) made.dataset.place = `${place.file}:${place.line}`;
  rows.set(address, made);
  return joined.join('listing-lines', made, place);
}

function showLines() {
  const shown = lines.slice(0, SHOWN), targets = new Set(shown.map(target).filter(to => to !== undefined));
  rows = new Map();
  joined.begin('listing-lines');
  $('listing-lines').replaceChildren(...shown.flatMap(({ address }, k) => {
    const isFunction = session.table?.functions.some(one => one.address === address);
    return [...(isFunction || targets.has(address) ? [head(labelOf(address))] : []), wordRow(k)];
  }));
  const first = $('listing-lines').querySelector('button');
  if (first) first.tabIndex = 0;
  if (session.seen) showNext(session.seen.pc);
}

export function showListing(text) {
  lines = text.trimEnd().split('\n').map(line => /^(\S+) (\S+)\s*(.*)$/.exec(line)).filter(Boolean)
    .map(([, address, word, says]) => ({ address: parseInt(address, 16), word: parseInt(word, 16), says }));
  gp = globalPointer(lines);
  showLines();
  $('listing-rest').textContent = lines.length > SHOWN ? `${lines.length - SHOWN} more words: zkc list shows all.` : '';
  $('word').hidden = true;
}

export function showNext(pc) {
  for (const one of $('listing-lines').querySelectorAll('.here')) { one.classList.remove('here'); one.removeAttribute('aria-current'); }
  const next = rows.get(pc);
  next?.classList.add('here');
  next?.setAttribute('aria-current', 'step');
  if (next && !$('listing').hidden) next.scrollIntoView({ block: 'nearest' });
}

// What the instruction at an address is, in words.
export function instructionAt(address) {
  const k = lines.findIndex(line => line.address === address);
  return k < 0 ? undefined : said(k);
}

// ---- a word

function choose(index) {
  for (const one of $('listing-lines').querySelectorAll('.chosen')) one.classList.remove('chosen');
  rows.get(lines[index].address).classList.add('chosen');
  showWord(index);
}

export function select(address) { rows.get(address)?.querySelector('button').focus(); }

function where({ address, word }) {
  const offset = session.file ? offsetOf(session.file, address) : undefined, place = placeAt(session.table, address);
  const bytes = [0, 8, 16, 24].map(shift => hex(word >>> shift & 255, 2)).join(' ');
  return [offset === undefined ? '' : `In the file at offset ${hex(offset)}, as the bytes ${bytes}.`, place ? `It is code of the statement in ${place.file}:${place.line}.` : ''].join(' ').trim();
}

function showWord(index) {
  const line = lines[index], to = target(line) ?? computed(lines[index - 1], line, gp), parts = fields(line.word);
  $('word').hidden = false;
  $('word-name').textContent = `${hex(line.address)}: ${said(index)}`;
  $('word-where').textContent = where(line);
  $('word-fields').replaceChildren(...parts.map(([name]) => element('th', name, { scope: 'col' })));
  $('word-bits').replaceChildren(...parts.map(([, bits]) => element('td', bits)));
  $('word-says').replaceChildren(...operands(line).map(one => element('li', one)));
  $('run-to').onclick = () => runTo([line.address]);
  $('break-here').onclick = () => breakAt(line.address);
  $('go-to').hidden = to === undefined || !rows.has(to);
  $('go-to').textContent = to === undefined ? '' : `It leads to ${labelOf(to)}`;
  $('go-to').onclick = () => select(to);
}
