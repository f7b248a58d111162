// What the compiler tells of a file beside it: its functions, its objects, and the lines at whose statements code begins.
import { text } from './dom.js';
import { ask } from './asking.js';
import { STACK, program } from './session.js';

// The table, or nothing where the engine has no stack for it.
export async function tableOf() {
  const got = await ask('functions', ...program(), STACK);
  if (!got.answer || got.answer.status !== 0) return { functions: [], objects: [] };
  return JSON.parse(text(got.answer.output));
}

const within = (one, address) => address >= one.address && address < one.address + one.size;

export const functionAt = (table, address) => table?.functions.find(one => within(one, address));

// The name of what lies at an address: a function, an object, a place in one.
export function nameAt(table, address) {
  const found = table?.functions.find(one => one.address === address) ?? table?.objects.find(one => within(one, address));
  if (!found) return undefined;
  const name = found.name ?? 'a string literal', behind = address - found.address;
  return behind === 0 ? name : `${name}+${behind}`;
}

// Of each function the lines with addresses, in the order of the code; of several at one address the last, since the others have no code.
export const linesOf = one => (one.lines ?? []).filter((line, k, all) => all[k + 1]?.address !== line.address);

// The line of the statement to which a word belongs.
export function placeAt(table, address) {
  const found = functionAt(table, address);
  return found && linesOf(found).filter(line => line.address <= address).at(-1);
}

// All addresses at which a statement begins, or a function.
export const starts = table => [...new Set(table.functions.flatMap(one => [one.address, ...linesOf(one).map(line => line.address)]))];

export const startsOf = (table, { file, line }) => [...new Set(table.functions.flatMap(one => linesOf(one).filter(row => row.file === file && row.line === line).map(row => row.address)))];
