// What the source means beside what the machine does: where each ends, at which tick and which instruction each byte is put, and both at
// the same event.
import { $, beginning, byteName, element, number, row, text } from './dom.js';
import { ask, askWhy } from './asking.js';
import { NEVER, STACK, input, program, session } from './session.js';
import { state } from './machine.js';
import { placeAt } from './table.js';
import * as joined from './joined.js';

const MOST = 1e7;       // ticks, and instructions
const BYTES = 24;       // bytes whose places are shown

let puts = [];          // of each byte put: { tick, instruction }

const meaningAt = ticks => ask('interpret', ...program(), input(), ticks);
const machineAt = count => ask('step', session.file, input(), count, 0, NEVER, 0, 0);
const goesOn = answer => answer.status === 124 && answer.message !== '';

function meaning({ status, message }) {
  if (message === '') return `ended with status ${status}`;
  if (status === 124) return 'goes on';
  const act = /^(.*):(\d+): undefined (\w+)\n$/.exec(message);
  return act ? `an undefined act, ${act[3]}, in line ${act[2]} of ${act[1]}` : message.trim();
}

// Shows both sides at their ends, or, without an end, as far as they were followed. What was built or stopped meanwhile makes it end.
export async function measure() {
  const turn = session.turn;
  $('agree').textContent = 'Both sides are run …';
  $('puts').replaceChildren();
  puts = [];
  const left = (await meaningAt(MOST)).answer, right = turn === session.turn ? (await machineAt(MOST)).answer : undefined;
  if (!left || !right || turn !== session.turn) return;
  const ticks = goesOn(left) ? MOST : await least(turn);
  if (turn !== session.turn) return;
  for (const [slider, end] of [['ticks', ticks], ['instructions', right.steps]]) { $(slider).max = end; $(slider).value = end; }
  await showBoth();
  if (turn !== session.turn) return;
  $('agree').textContent = verdict(left, right, ticks);
  await showPuts(turn, [left, ticks], [right, right.steps]);
}

const isPrefix = (one, other) => one.length <= other.length && one.every((byte, k) => byte === other[k]);
const DIFFER = 'They differ, which contradicts the theorem: please tell us.';

// The theorem's sentence with the numbers of this run.
function verdict(left, right, ticks) {
  const count = left.output.length, n = number(ticks);
  if (left.status === 123 && left.message) return `The abstract machine meets ${meaning(left)}: the theorem says nothing of this run, and what the file does from there on is promised to nobody.`;
  if (goesOn(left)) return isPrefix(left.output, right.output) || isPrefix(right.output, left.output) ? `They agree as far as they were followed: ${n} ticks are used, and neither has put what the other has not.` : DIFFER;
  if (right.outcome !== 1) return `The abstract machine ends with status ${left.status} within ${n} ticks; the file is not at its end after ${number(MOST)} instructions.`;
  const same = left.status === right.detail && count === right.output.length && isPrefix(left.output, right.output);
  return same ? `They agree: the abstract machine ends within ${n} ticks without an undefined act, and the file ends with the same status, ${right.detail}, having put the same ${count} bytes.` : DIFFER;
}

// The least number of ticks with which the program is at its end.
async function least(turn) {
  const isShort = async ticks => { const { answer } = turn === session.turn ? await meaningAt(ticks) : {}; return answer !== undefined && goesOn(answer); };
  let low = 0, high = 16;
  while (await isShort(high)) { low = high + 1; high *= 4; }
  while (low < high) {
    const middle = Math.floor((low + high) / 2);
    if (await isShort(middle)) low = middle + 1; else high = middle;
  }
  return low;
}

// ---- byte by byte

// The counts at which the output grows, in order, above `low` and up to `high`, where `before` and `behind` are its lengths at these.
async function growths(lengthAt, low, before, high, behind, found) {
  if (behind <= before || found.length >= BYTES) return;
  if (high - low <= 1) { found.push(high); return; }
  const middle = Math.floor((low + high) / 2), length = await lengthAt(middle);
  if (length === undefined) return;
  await growths(lengthAt, low, before, middle, length, found);
  await growths(lengthAt, middle, length, high, behind, found);
}

async function showPuts(turn, [left, ticks], [right, instructions]) {
  const lengthBy = at => async count => turn === session.turn ? (await at(count)).answer?.output.length : undefined;
  const atTick = [], atInstruction = [];
  await growths(lengthBy(meaningAt), 0, 0, ticks, left.output.length, atTick);
  await growths(lengthBy(machineAt), 0, 0, instructions, right.output.length, atInstruction);
  if (turn !== session.turn) return;
  puts = Array.from({ length: Math.min(atTick.length, atInstruction.length) }, (_, k) => ({ tick: atTick[k], instruction: atInstruction[k] }));
  $('puts').replaceChildren(...puts.map(({ tick, instruction }, k) => {
    const chosen = element('button', `${k + 1}`, { type: 'button', title: 'Both sides where this byte is put' });
    chosen.onclick = () => set(tick, instruction);
    return row([chosen, byteName(left.output[k]), String(tick), String(instruction)]);
  }));
  $('puts-rest').textContent = left.output.length > puts.length ? `The first ${puts.length} of ${left.output.length} bytes are shown.` : '';
}

function set(ticks, instructions) {
  $('ticks').value = ticks;
  $('instructions').value = instructions;
  return showBoth();
}

// Both sides at the event before or behind that of the left one: where a byte is put, where both begin, or where both are at their end.
function toEvent(by) {
  const all = [{ tick: 0, instruction: 0 }, ...puts, { tick: Number($('ticks').max), instruction: Number($('instructions').max) }], now = Number($('ticks').value);
  const next = by > 0 ? all.find(one => one.tick > now) ?? all.at(-1) : all.findLast(one => one.tick < now) ?? all[0];
  return set(next.tick, next.instruction);
}

// ---- the two sliders

let showing, again = false;

// Shows both sides at the counts of the sliders; those that a reader passes over meanwhile are left out.
export function showBoth() {
  again = true;
  showing ??= (async () => {
    while (again) {
      again = false;
      await showCounts();
    }
    showing = undefined;
  })();
  return showing;
}

// The line of the statement in which the abstract machine is after so many ticks.
async function lineAt(ticks) {
  const got = await askWhy('trace', ...program(), input(), 0, ticks, 0);
  if (!got.answer || got.answer.status === 1 && got.answer.message !== '') return undefined;
  return statementOf(text(got.answer.output).split('\n').filter(Boolean));
}

// The statement in which a stream of events is at its end: that of the innermost call that is active.
function statementOf(lines) {
  const calls = [];
  for (const one of lines.map(line => JSON.parse(line))) {
    if (one.event === 'enter') calls.push(undefined);
    if (one.event === 'leave') calls.pop();
    if (one.event === 'statement') calls[calls.length - 1] = { file: one.file, line: one.line };
  }
  return calls.at(-1);
}

const sayPlace = place => place ? `, in line ${place.line} of ${place.file}` : '';

async function showCounts() {
  const turn = session.turn, ticks = Number($('ticks').value), count = Number($('instructions').value);
  const left = (await meaningAt(ticks)).answer, right = turn === session.turn ? (await machineAt(count)).answer : undefined;
  const place = left && ticks <= 1e5 && turn === session.turn ? await lineAt(ticks) : undefined;
  if (!left || !right || turn !== session.turn) return;
  $('tick-state').textContent = `after ${ticks} ticks: ${meaning(left)}${sayPlace(place)}`;
  $('tick-output').textContent = beginning(left.output);
  $('instruction-state').textContent = `after ${count} instructions: ${state(right)}${sayPlace(right.outcome === 0 ? placeAt(session.table, right.pc) : undefined)}`;
  $('instruction-output').textContent = beginning(right.output);
  if (place) joined.mark(place, 'both');
}

function nudge(slider, by) {
  $(slider).value = Number($(slider).value) + by;
  showBoth();
}

export function begin() {
  for (const slider of ['ticks', 'instructions']) {
    $(slider).oninput = showBoth;
    $(slider + '-less').onclick = () => nudge(slider, -1);
    $(slider + '-more').onclick = () => nudge(slider, 1);
  }
  $('event-before').onclick = () => toEvent(-1);
  $('event-behind').onclick = () => toEvent(1);
  $('theorem-stack').textContent = number(STACK);
}
