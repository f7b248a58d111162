// The stack: what each function takes, which calls are active, and how that compares with the bound.
import { $, around, element, hex, number, row } from './dom.js';
import { STACK, session } from './session.js';

const END = 0x80000000;      // behind the last byte of the stack

export function showFrames() {
  $('frame-lines').replaceChildren(...(session.table?.functions ?? []).map(one => row([one.name, number(one.frame), number(one.weight), one.calls.join(' ')])));
  showCalls(undefined);
}

// The bytes that the machine's stack pointer says.
export function showDepth() {
  const { registers } = session.seen, used = END - registers[2];
  $('depth').textContent = registers[2] ? `sp is ${hex(registers[2])}: ${number(used)} bytes of ${number(STACK)} are in use.` : 'The stack is not set up yet.';
  $('used').max = STACK;
  $('used').value = registers[2] ? used : 0;
}

function callBox(name) {
  const one = session.table.functions.find(other => other.name === name);
  const made = around('li', [element('b', name), one ? ` frame ${number(one.frame)}, weight ${number(one.weight)}` : ''], { className: 'call' });
  if (one) made.style.setProperty('--tall', `${Math.min(96, 24 + one.weight / 32)}px`);
  return made;
}

// The calls that are active on the abstract machine, the innermost first, with their weights against the stack.
export function showCalls(names) {
  $('calls').replaceChildren(...(names ?? []).toReversed().map(callBox));
  if (!names) { $('weights').textContent = ''; return; }
  const sum = names.reduce((all, name) => all + (session.table.functions.find(one => one.name === name)?.weight ?? 0), 0);
  const bound = session.bound === undefined ? '' : ` Verified: never more than ${number(session.bound)}.`;
  $('weights').textContent = `The weights of the ${names.length} active calls sum to ${number(sum)} of ${number(STACK)} bytes.${bound}`;
}
