// The machine that is kept: by statement, by instruction, back, to a line, and as far as it goes, in slices, so that it can be stopped.
import { $, hex, number, say } from './dom.js';
import { ask, askMachine, moveMachine, stop as stopAll } from './asking.js';
import { MOST, NEVER, bytesIn, input, isOpen, session } from './session.js';
import { WINDOW, showMachine, state, windowFrom } from './machine.js';
import { starts, startsOf } from './table.js';

const SLICE = 1e6, SLOW = 1e5;      // instructions of a slice; where each is looked at by itself
let running = false, goesOn = false, moved = async () => {}, ended = async () => {}, isKept = false;

// `whenMoved` is called where the machine has come to a place, `whenEnded` where a run has.
export function begin(whenMoved, whenEnded) {
  [moved, ended] = [whenMoved, whenEnded];
  $('send').onclick = send;
  $('end-input').onclick = () => { $('ask').checked = false; close(); };
  $('typed').onkeydown = event => { if (event.key === 'Enter') { event.preventDefault(); send(); } };
  $('ask').onchange = () => { isKept = false; if (session.seen) go(session.seen.steps); };
}

export function forget() { isKept = false; running = false; goesOn = false; }

const tooDeep = failed => say(`This browser has no stack for it (${failed}). The program zkc has.`);

// An answer of the machine; nothing where it was stopped or is of an earlier program.
async function machine(turn, what, ...args) {
  const got = await askMachine(what, ...args);
  if (got.failed !== undefined) {
    isKept = false;
    if (moveMachine() && (what === 'load' || await ready(turn))) return machine(turn, what, ...args);
    tooDeep(got.failed);
  }
  return got.failed !== undefined || got.stopped || turn !== session.turn ? undefined : got;
}

// Loads the file anew where the machine is gone, and goes to where it stood.
async function ready(turn) {
  if (isKept) return true;
  const got = await machine(turn, 'load', session.file, input(), !isOpen());
  if (!got) return false;
  if (got.answer !== 0) {
    session.seen = { outcome: 4, detail: got.answer, steps: 0, pc: 0, registers: Array(32).fill(0), window: new Uint8Array(WINDOW), output: new Uint8Array(), put: 0 };
    say((await ask('message', got.answer)).answer ?? String(got.answer));
    return false;
  }
  isKept = true;
  return session.seen ? Boolean(await machine(turn, 'to', session.seen.steps)) : true;
}

// Shows where the machine stands; `isLast` where it stays there.
async function refresh(turn, isLast) {
  const got = await machine(turn, 'state', windowFrom(), WINDOW);
  if (!got) return false;
  if (isLast) session.previous = session.seen;
  session.seen = got.answer;
  $('count').value = session.seen.steps;
  showMachine();
  $('waits').hidden = !session.seen.waits;
  return true;
}

function report() {
  const { seen } = session;
  say(`After ${seen.steps} instructions the program ${state(seen)}${seen.outcome === 0 ? `, at ${hex(seen.pc)}` : ''}.`);
}

// Does something with the machine, and shows where it stands then.
async function by(what, ...args) {
  if (!session.file || running) return;
  const turn = session.turn;
  goesOn = false;
  if (!await ready(turn) || !await machine(turn, what, ...args) || !await refresh(turn, true)) return;
  report();
  if (session.seen.waits) $('typed').focus();
  await moved();
}

const steps = () => session.seen?.steps ?? 0;
export const go = count => by('to', Math.max(0, Math.min(count, MOST)));
export const step = () => by('run', 1, NEVER);
export const back = () => go(steps() - 1);
export const statementBack = () => by('backTo', starts(session.table));

// ---- in slices

// To the first of some addresses, one instruction on at the least; where there is none, as far as it goes.
export async function runTo(halts) {
  if (!session.file || running) return;
  const turn = session.turn, before = session.seen;
  if (!await ready(turn)) return;
  [running, goesOn] = [true, halts];
  $('stop').disabled = false;
  say('The program runs …');
  const isThere = await inSlices(turn, halts);
  const wasStopped = !running;
  running = false;
  $('stop').disabled = true;
  if (turn !== session.turn || !session.seen) return;
  session.previous = before;
  showMachine();
  if (wasStopped) say(`Stopped after ${number(session.seen.steps)} instructions.`);
  else report();
  if (session.seen.waits) $('typed').focus();
  await moved();
  if (turn !== session.turn) return;
  if (!isThere && session.seen.outcome !== 0 && !session.seen.waits) await ended();
}

async function inSlices(turn, halts) {
  const several = halts.length > 1;
  for (let left = MOST - steps(); left > 0 && running && turn === session.turn; left -= several ? SLOW : SLICE) {
    const got = several ? await machine(turn, 'runTo', SLOW, halts) : await machine(turn, 'run', SLICE, halts[0] ?? NEVER);
    if (!got || !await refresh(turn, false)) return false;
    if (session.seen.outcome !== 0) return false;
    if (halts.includes(session.seen.pc)) return true;
  }
  return false;
}

export const statement = () => runTo(starts(session.table));

// To the next statement of a line.
export function toLine(place) {
  const halts = startsOf(session.table, place);
  if (halts.length === 0) return say(`No code begins in line ${place.line} of ${place.file}.`);
  return runTo(halts);
}

// Stops a run where it is, or ends what else is under way.
export function stop() {
  if (running) { running = false; return; }
  session.turn += 1;
  if (stopAll()) isKept = false;
  say('Stopped.');
}

export const isRunning = () => running;

// ---- input while it waits

async function send() {
  const bytes = [...bytesIn($('typed').value), 10];
  session.typed.push(...bytes);
  $('typed').value = '';
  await give(Uint8Array.from(bytes), false);
}

const close = () => give(new Uint8Array(), true);

async function give(bytes, closed) {
  const turn = session.turn, halts = goesOn;
  if (!await ready(turn) || !await machine(turn, 'give', bytes, closed)) return;
  $('waits').hidden = true;
  if (halts) await runTo(halts);
  else await go(steps());
}

