// The machine: registers, memory, its output, and where it stands in source and listing.
import { $, beginning, element, hex, number, row } from './dom.js';
import { askMachine } from './asking.js';
import { session } from './session.js';
import { instructionAt, showNext } from './listing.js';
import { placeAt } from './table.js';
import { setNext } from './marks.js';
import { reveal } from './sources.js';
import { NAMES } from './words.js';
import { showDepth } from './stack.js';

const CAUSES = ['', 'illegal word', 'fetch fault', 'target', 'misaligned', 'load fault', 'store fault', 'break', 'unknown call'];
const OUTCOMES = ['goes on', 'ended', 'trapped', 'is out of memory', 'is not loaded', 'waits for input'];
export const WINDOW = 128;

export const state = seen => seen.outcome === 1 ? `ended with status ${seen.detail}`
  : seen.outcome === 2 ? `trapped: ${CAUSES[seen.detail]}` : OUTCOMES[seen.outcome];

// The address in the field: a number, or a register's name.
export function windowFrom() {
  const word = $('from').value.trim(), register = NAMES.indexOf(word);
  const address = register >= 0 ? (session.seen ? session.seen.registers[register] : 0) : Number(word);
  return Number.isFinite(address) ? (address & ~15) >>> 0 : 0;
}

function showOutput({ output, put }) {
  $('output').textContent = put > output.length ? `${beginning(output.slice(0, output.length / 2))}\n… ${number(put - output.length)} bytes …\n${beginning(output.slice(output.length / 2))}` : beginning(output);
}

// The line of the statement in which the machine stands, in the source, and its instruction, in the listing.
function showPlace(seen) {
  const place = seen.outcome === 0 || seen.outcome === 5 ? placeAt(session.table, seen.pc) : undefined;
  setNext(place);
  if (place) reveal(place);
  showNext(seen.pc);
  $('where').textContent = `after ${seen.steps} instructions: ${state(seen)}, pc ${hex(seen.pc)}${place ? `, ${place.file}:${place.line}` : ''}`;
  $('next-instruction').textContent = seen.outcome === 0 || seen.outcome === 5 ? instructionAt(seen.pc) ?? '' : '';
}

export function showMachine() {
  const { seen, previous } = session;
  showOutput(seen);
  $('registers').replaceChildren(...NAMES.map((name, k) => {
    const changed = previous && previous.registers[k] !== seen.registers[k];
    return element('span', `${changed ? '*' : ' '}${name.padEnd(4)} ${hex(seen.registers[k])}`, { title: `x${k}: ${seen.registers[k] | 0}${changed ? `, before ${hex(previous.registers[k])}` : ''}`, className: changed ? 'changed' : '' });
  }));
  showPlace(seen);
  showDepth();
  showBytes(windowFrom(), seen.window);
}

function showBytes(from, window) {
  $('memory').replaceChildren(...Array.from({ length: window.length / 16 }, (_, k) => {
    const bytes = [...window.slice(16 * k, 16 * k + 16)];
    return row([hex(from + 16 * k), bytes.map(b => hex(b, 2)).join(' '), bytes.map(b => b >= 32 && b < 127 ? String.fromCharCode(b) : '.').join('')]);
  }));
}

// Memory from another address, of the machine as it stands.
export async function showMemory() {
  if (!session.seen || session.seen.outcome === 4) return;
  const from = windowFrom(), got = await askMachine('state', from, WINDOW);
  if (got.answer) showBytes(from, got.answer.window);
}
