// What was built last, and where its machine stands.
import { $ } from './dom.js';
import { files, mainName } from './sources.js';

export const NEVER = 1;              // no instruction stands at an odd address
export const MOST = 1e9;             // instructions of one run
export const STACK = 1 << 20;        // bytes of the stack of what zk_build makes

// turn: counts builds and stops, so that an answer of an earlier one is known as old; table: functions, objects and statements of the file;
// typed: the input that was typed while the program waited
export const session = { turn: 0, file: undefined, table: undefined, seen: undefined, previous: undefined, typed: [] };

const bytesOf = { n: 10, t: 9, 0: 0, '\\': 92 };

// The bytes of a field: \n, \t, \0, \\ and \x41 stand for bytes.
export function bytesIn(field) {
  const found = [];
  for (const [word, escape, digits] of field.matchAll(/\\(?:([nt0\\])|x([0-9a-fA-F]{2}))|[^]/gu))
    found.push(...(escape !== undefined ? [bytesOf[escape]] : digits !== undefined ? [parseInt(digits, 16)] : new TextEncoder().encode(word)));
  return Uint8Array.from(found);
}

// The input that is known: that of the field, and what was typed while the program waited.
export const input = () => Uint8Array.from([...bytesIn($('input').value), ...session.typed]);

// Whether the input goes on behind what is known.
export const isOpen = () => $('ask').checked;

export const program = () => [files(), mainName()];
