// node pictures.mjs FOLDER: the page's pictures, by the modules in FOLDER, of the examples against the machine's memory. At each place at which a statement begins the
// machine is followed by the observer's events, and what the picture has of each static object is what the machine has there. The last line counts.
import fs from 'fs';
import { compile, open } from '../../../page/zikorape.js';
import { examples } from '../../../page/examples.js';
import { Story, describe, follow } from '../../../page/trace.js';

const [zk, analyser] = ['zikorape', 'analysis'].map(name => open(compile(fs.readFileSync(`${process.argv[2]}/${name}.wasm`))));
const ARRIVALS = 3000;
const json = answer => JSON.parse(new TextDecoder().decode(answer.output));
const text = answer => new TextDecoder().decode(answer.output);
let passed = 0, failed = 0, cells = 0;

function holds(name, is, seen = '') {
  if (is) { passed++; return; }
  failed++;
  console.log(`FAIL ${name} ${String(seen).slice(0, 300)}`);
}

// The bytes that the page's field stands for.
const given = field => Buffer.from(field.replace(/\\n/g, '\n'), 'latin1');

// The last of several lines at one address has the code.
function places({ functions }) {
  const found = new Map();
  for (const one of functions) {
    for (const line of one.lines) found.set(line.address, line);
    found.set(one.address, { enters: one.name });
  }
  return found;
}

function numberAt(machine, address, width) {
  return machine.read(address, width).reduceRight((sum, byte) => sum * 256 + byte, 0);
}

// The elements of an object that the machine has otherwise than the picture.
function different(machine, object, { address, size }) {
  const width = size / object.cells.size;
  return [...object.cells.values()].filter((value, k) => {
    cells++;
    return numberAt(machine, address + k * width, width) !== (value % 2 ** (8 * width) + 2 ** (8 * width)) % 2 ** (8 * width);
  });
}

function example({ name, files, input }) {
  const main = files[0][0], table = json(zk.functions(files, main)), halts = places(table), bytes = given(input);
  const events = text(analyser.trace(files, main, bytes, 0, 50000, 0)).split('\n').filter(Boolean).map(line => JSON.parse(line));
  const story = new Story(events, describe(json(zk.form(files, main, 1)), json(zk.form(files, main, 2))));
  const machine = zk.machine(zk.build(files, main).output), met = [];
  machine.input(bytes);
  machine.closeInput();
  for (let outcome = 0; outcome === 0 && met.length < ARRIVALS; outcome = machine.step()) {
    const arrival = halts.get(machine.pc());
    if (!arrival) continue;
    met.push(arrival);
    const count = follow(events, met);
    if (count === undefined) { holds(`${name} is followed at ${machine.steps()}`, false, JSON.stringify(met.slice(-3))); continue; }
    story.to(count);
    const wrong = story.statics.filter(one => one.name !== undefined).filter(one => different(machine, one, table.objects.find(other => other.name === one.name)).length > 0);
    holds(`${name} at ${machine.steps()}`, wrong.length === 0, wrong.map(one => one.name).join());
  }
  machine.free();
}

for (const one of examples) if (one.name !== 'A program without an end') example(one);
holds('there are cells to compare', cells > 50000, cells);
console.log(`${passed} passed, ${failed} failed`);
process.exitCode = failed ? 1 : 0;
