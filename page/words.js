// A word of the code: its fields, where it leads, and what its registers and numbers are.
import { hex } from './dom.js';

export const NAMES = ['zero', 'ra', 'sp', 'gp', 'tp', 't0', 't1', 't2', 's0', 's1', 'a0', 'a1', 'a2', 'a3', 'a4', 'a5', 'a6', 'a7',
  's2', 's3', 's4', 's5', 's6', 's7', 's8', 's9', 's10', 's11', 't3', 't4', 't5', 't6'];

const FORMS = {
  R: [['funct7', 7], ['rs2', 5], ['rs1', 5], ['funct3', 3], ['rd', 5], ['opcode', 7]],
  I: [['imm[11:0]', 12], ['rs1', 5], ['funct3', 3], ['rd', 5], ['opcode', 7]],
  S: [['imm[11:5]', 7], ['rs2', 5], ['rs1', 5], ['funct3', 3], ['imm[4:0]', 5], ['opcode', 7]],
  B: [['imm[12|10:5]', 7], ['rs2', 5], ['rs1', 5], ['funct3', 3], ['imm[4:1|11]', 5], ['opcode', 7]],
  U: [['imm[31:12]', 20], ['rd', 5], ['opcode', 7]],
  J: [['imm[20|10:1|11|19:12]', 20], ['rd', 5], ['opcode', 7]],
};
const OF_OPCODE = { 0x33: 'R', 0x23: 'S', 0x63: 'B', 0x37: 'U', 0x17: 'U', 0x6f: 'J' };
const formOf = word => OF_OPCODE[word & 127] ?? 'I';

// The bits of a word, field by field (unprivileged ISA manual, 2.3).
export function fields(word) {
  const bits = (word >>> 0).toString(2).padStart(32, '0');
  let at = 0;
  return FORMS[formOf(word)].map(([name, width]) => [name, bits.slice(at, at += width)]);
}

// Where a branch or a jump leads.
export function target({ address, word }) {
  const form = formOf(word), sign = word >> 31;
  if (form === 'B') return address + (sign << 12 | (word >>> 7 & 1) << 11 | (word >>> 25 & 63) << 5 | (word >>> 8 & 15) << 1) >>> 0;
  if (form === 'J') return address + (sign << 20 | word & 0xff000 | (word >>> 20 & 1) << 11 | (word >>> 21 & 1023) << 1) >>> 0;
  return undefined;
}

// What a word adds to the register that it reads: the immediate of an addition, a load, a store or a jump through a register.
function added({ word }) {
  const opcode = word & 127;
  if (![0x13, 0x67, 0x03, 0x23].includes(opcode) || opcode === 0x13 && (word >>> 12 & 7) !== 0) return undefined;
  return { rs1: word >>> 15 & 31, low: opcode === 0x23 ? word >> 25 << 5 | word >>> 7 & 31 : word >> 20 };
}

// Whether a word adds to gp, as an access to an element does with the index.
const addsToGp = ({ word }) => (word & 0xfe00707f) === 0x33 && [word >>> 15 & 31, word >>> 20 & 31].includes(3);

// The address that a word computes, of a callee or of an object: with the auipc or the lui before it, from whose register it reads, or from gp, where that is known;
// of an element of an array, where the array begins.
export function computed(before, line, gp) {
  const found = added(line), base = before && { 0x17: before.address, 0x37: 0 }[before.word & 127];
  if (!found) return undefined;
  if (base !== undefined && (before.word >>> 7 & 31) === found.rs1) return base + (before.word & 0xfffff000) + found.low >>> 0;
  const fromGp = found.rs1 === 3 || before && addsToGp(before) && (before.word >>> 7 & 31) === found.rs1;
  return fromGp && gp !== undefined ? gp + found.low >>> 0 : undefined;
}

// What gp has, by the words of the program's start that set it.
export function globalPointer(lines) {
  const k = lines.findIndex(({ word }) => (word & 0xfff) === 0x1b7);      // lui x3
  return k < 0 || k + 1 >= lines.length ? undefined : computed(lines[k], lines[k + 1]);
}

const ROLES = [[/^zero$/, 'always 0'], [/^ra$/, 'the return address'], [/^sp$/, 'the stack pointer'], [/^gp$/, 'the global pointer, 2048 bytes past the begin of the data'],
  [/^tp$/, 'the thread pointer, which is not used'], [/^t/, 'a temporary, which a call may change'], [/^s/, 'kept over calls: a callee saves it'],
  [/^a[01]$/, 'an argument, or a result'], [/^a/, 'an argument']];

// What a register is, by the calling convention.
export function register(number) {
  return `x${number} is ${NAMES[number]}: ${ROLES.find(([name]) => name.test(NAMES[number]))[1]}`;
}

// What the registers and the numbers of an instruction are, a sentence each.
export function operands({ address, word, says }) {
  const found = [...new Set([...says.matchAll(/\bx(\d+)\b/g)].map(one => Number(one[1])))].map(register);
  const upper = /^(lui|auipc) \S+,(0x[0-9a-fA-F]+)/.exec(says), to = target({ address, word });
  if (upper) found.push(`${upper[2]} are the upper 20 bits: ${hex(word & 0xfffff000)}${upper[1] === 'auipc' ? ', which is added to the address of this word' : ''}`);
  if (to !== undefined) found.push(`the distance ${to - address} leads to ${hex(to)}`);
  const memory = /(-?\d+)\(x(\d+)\)/.exec(says);
  if (memory) found.push(`${memory[0]} is the address in ${NAMES[memory[2]]}, and ${memory[1]}`);
  const number = /^(?:addi|andi|ori|xori|slti|sltiu) \S+,(-?\d+)$/.exec(says);
  if (number && Math.abs(number[1]) > 9) found.push(`${number[1]} is 0x${(Number(number[1]) & 0xfff).toString(16)} in 12 bits`);
  return found;
}

export const withNames = says => says.replace(/\bx([12]?\d|3[01])\b/g, (_, number) => NAMES[number]);

// Its offset in the file, by the program headers (gABI, chapter 5).
export function offsetOf(file, address) {
  const view = new DataView(file.buffer, file.byteOffset, file.length);
  for (let k = 0; k < view.getUint16(44, true); k++) {
    const header = view.getUint32(28, true) + 32 * k, get = n => view.getUint32(header + n, true);
    if (get(0) === 1 && address >= get(8) && address < get(8) + get(16)) return get(4) + address - get(8);
  }
  return undefined;
}
