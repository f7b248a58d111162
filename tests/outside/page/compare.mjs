// node thread.mjs compare.mjs WASM ROWS: each row of ROWS (sources.py makes them) by the page's module, against what the program said, byte
// for byte; machines against rv32.mjs; files that are not loaded; deep sources again and again in one instance; and want of memory.
// SMALL is the same module with a memory of at most 32 MiB, where check.sh could make one. The last line counts.
import fs from 'fs';
import { compile, open } from '../../../page/zikorape.js';
import { machine } from './rv32.mjs';

const [wasm, rows] = process.argv.slice(2), MOST = 10000000, NEVER = 1, WINDOW = 64;
const module = compile(fs.readFileSync(wasm));
let zk = open(module), passed = 0, failed = 0;

const latin = text => Buffer.from(text, 'latin1');
const plain = answer => JSON.stringify([answer.status, Buffer.from(answer.output).toString('latin1'), Buffer.from(answer.message).toString('latin1')]);

function holds(name, is, seen = '') {
  if (is) { passed++; return; }
  failed++;
  console.log(`FAIL ${name} ${String(seen).slice(0, 300)}`);
}

// A call; where the engine has no stack for it, the instance is not used again.
function tried(call) {
  try { return call(); } catch (error) { zk = open(module); return { status: -1, output: [], message: String(error) }; }
}

// ---- the same as the program

function row({ name, files, input, wanted }) {
  const given = files.map(([file, text]) => [latin(file), latin(text)]), main = given[0][0], bytes = latin(input);
  const built = tried(() => zk.build(given, main));
  const calls = {
    build: () => built, pp: () => zk.preprocess(given, main), list: () => zk.list(given, main),
    interp: () => zk.interpret(given, main, bytes, MOST), run: () => zk.run(built.output, 'a.out', bytes, MOST),
  };
  for (const [command, answer] of Object.entries(wanted)) {
    const found = plain(tried(calls[command]));
    holds(`${name}, ${command}`, found === JSON.stringify(answer), found);
  }
  if (wanted.run && wanted.run[0] < 123 && wanted.run[2] === '') machines(name, built.output, bytes, wanted.run);
}

// ---- the machine at some instructions, by rv32.mjs

function isSame(seen, other, steps, end) {
  const outcome = end ? end.trapped ? 2 : 1 : 0, sp = other.x[2] >>> 0;
  return seen.outcome === outcome && seen.steps === steps && seen.pc === other.pc && seen.detail === (outcome === 1 ? end.ended : 0)
    && seen.registers.every((value, k) => value === other.x[k] >>> 0) && Buffer.from(seen.output).equals(Buffer.from(other.output))
    && seen.window.every((byte, k) => byte === (other.byte(sp + k) ?? 0));
}

function machines(name, file, input, [status, output]) {
  const other = machine(file, input), met = new Map();
  let steps = 0, end;
  for (const count of [0, 1, 2, 3, 10, 100, 1000]) {
    while (steps < count && !end) { met.set(other.pc, met.get(other.pc) ?? steps); end = other.step(); steps++; }
    const seen = tried(() => zk.step(file, input, count, 0, NEVER, other.x[2] >>> 0, WINDOW));
    holds(`${name}, the machine at ${count}`, isSame(seen, other, steps, end), JSON.stringify([seen.outcome, seen.detail, seen.steps, seen.pc, other.pc, seen.message]));
    if (end) break;
  }
  for (const [pc, first] of [...met].slice(-2)) {
    const seen = tried(() => zk.step(file, input, MOST, 0, pc, 0, 0));
    holds(`${name}, run to ${pc.toString(16)}`, seen.outcome === 0 && seen.pc === pc && seen.steps === first, JSON.stringify([seen.outcome, seen.pc, seen.steps, first]));
  }
  const last = tried(() => zk.step(file, input, MOST, 0, NEVER, 0, 0));
  holds(`${name}, the machine at its end`, last.outcome === 1 && last.detail === status && Buffer.from(last.output).toString('latin1') === output, JSON.stringify([last.outcome, last.detail]));
}

function notLoaded() {
  const [first] = all.filter(one => one.wanted.run), built = zk.build(first.files, first.files[0][0]).output;
  const cut = built.slice(0, 51), other = built.slice(), kind = built.slice();
  other[0] = 0;
  kind[16] = 3;
  for (const [name, file, code] of [['51 bytes', cut, 901], ['no magic number', other, 902], ['another type', kind, 903]]) {
    const seen = zk.step(file, new Uint8Array(), 5, 0, NEVER, 0, WINDOW);
    holds(`a file with ${name} is not loaded`, seen.outcome === 4 && seen.detail === code && seen.output.length === 0, JSON.stringify([seen.outcome, seen.detail]));
  }
}

// ---- stack and memory

// The engine compiles its code anew meanwhile, and what was given back is used again.
function deepAgain() {
  const deep = all.filter(one => one.name.startsWith('nested/'));
  zk = open(module);
  for (let round = 0; round < 10; round++) for (const one of deep) tried(() => zk.build(one.files, one.files[0][0]));
  const [first] = deep, after = tried(() => zk.build(first.files, first.files[0][0]));
  holds('deep sources again and again', plain(after) === JSON.stringify(first.wanted.build), plain(after));
  holds('memory is given back', zk.memory() < 96 << 20, zk.memory());
}

function smallMemory(path) {
  const long = [['main.c', 'int main(void) { int a = 1;\n' + '    a = a * 3 % 1000 + 7;\n'.repeat(40000) + 'return a; }\n']];
  const small = open(compile(fs.readFileSync(path)));
  for (const command of ['build', 'list', 'interpret']) {
    const seen = tried(() => small[command](long, 'main.c'));
    holds(`want of memory, ${command}`, seen.status === 1 && seen.message === 'cc: 801 out of memory\n' && seen.output.length === 0, JSON.stringify(seen).slice(0, 200));
  }
}

const all = fs.readFileSync(rows, 'utf8').split('\n').filter(Boolean).map(line => JSON.parse(line));
holds('there are rows', all.length > 1100, all.length);
for (const one of all) row(one);
notLoaded();
deepAgain();
if (process.env.SMALL) smallMemory(process.env.SMALL);
console.log(`${passed} passed, ${failed} failed`);
process.exitCode = failed ? 1 : 0;
