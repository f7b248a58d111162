// Zikorape for Node and for browsers: `await load()` answers the calls of zikorape.h.
import { compile, open } from './zikorape.js';

async function bytesAt(at) {
  if (typeof process === 'object' && process.versions?.node) return (await import('node:fs/promises')).readFile(at);
  const fetched = await fetch(at);
  if (!fetched.ok) throw new Error(`${at}: ${fetched.status}`);
  return fetched.arrayBuffer();
}

// Where a call had no stack for its source it throws (RangeError, RuntimeError): load again then.
export async function load(at = new URL('zikorape.wasm', import.meta.url)) {
  return open(await WebAssembly.compile(await bytesAt(at)));
}

// The calls of one of the other modules, which the first would be half as large again with.
async function part(at, names) {
  const zk = await load(at);
  return Object.fromEntries([...names, 'message', 'version', 'memory'].map(name => [name, zk[name]]));
}

// Why programs are refused, and their warnings: `explain` and `warn`.
export const loadDiagnostics = (at = new URL('diagnostics.wasm', import.meta.url)) => part(at, ['explain', 'warn']);

// Whether programs do anything undefined, on any input or in a run: `verify`, `explainRun`, and `trace`.
export const loadAnalysis = (at = new URL('analysis.wasm', import.meta.url)) => part(at, ['verify', 'explainRun', 'trace']);

// At most `max` instructions more of a machine, with input and output by functions. `get` is called where input is wanted, and answers a text, an empty one at the end of the
// input, or null where there is none yet, which ends the call with 5; `put` takes bytes, before input is asked for and at the latest after `slice` instructions.
export function serve(machine, { get = () => '', put = () => {}, max = 1e9, slice = 65536 } = {}) {
  const last = machine.steps() + max;
  for (;;) {
    const outcome = machine.run(Math.min(slice, last - machine.steps()));
    const found = machine.output();
    if (found.length) put(found);
    if (outcome === 5) {
      const given = get();
      if (given === null) return outcome;
      if (given.length) machine.input(given); else machine.closeInput();
    } else if (outcome !== 0 || machine.steps() >= last) return outcome;
  }
}

// A run of the interpreter that is kept: it goes on by ticks, and tells what it does. What is kept is the input and how much was told; the run is done from the start in
// each call, so calls that go further by doubling cost a run. `outcome`: 0 it goes on, 1 it ended, 2 it did something undefined, 3 memory ran out, 4 it is refused, 5 it wants input.
export class Interpreter {
  #zk; #files; #main; #given = []; #closed = false; #from = 0; #least = 0; #told = 0;
  outcome = 0;
  detail = 0;
  message = '';

  constructor(zk, files, main) { this.#zk = zk; this.#files = files; this.#main = main; }

  input(text) {
    if (this.#closed) throw new Error('the input is closed');
    this.#given.push(...(typeof text === 'string' ? new TextEncoder().encode(text) : text));
  }

  closeInput() { this.#closed = true; }

  // Goes on to the tick `until`, counted from the start, and answers what that tells: an object an event.
  run(until = 1e9) {
    const to = Math.max(until, this.#least);
    if ((this.outcome !== 0 && this.outcome !== 5) || to < this.#from) return [];
    const answer = this.#zk.trace(this.#files, this.#main, Uint8Array.from(this.#given), this.#closed ? 0 : 1, to, this.#from);
    const lines = new TextDecoder().decode(answer.output.subarray(this.#told)).split('\n').filter(line => line);
    const waits = answer.status === 257;
    this.#told = waits ? answer.output.length : 0;
    this.#least = waits ? to : 0;
    this.outcome = waits ? 5 : answer.status === 256 ? 4 : !answer.message ? 1 : ({ 1: 4, 123: 2, 124: 0 })[answer.status] ?? 3;
    if (this.outcome === 0) this.#from = to + 1;
    if (this.outcome === 1) this.detail = answer.status;
    if (this.outcome >= 2 && this.outcome <= 4) this.message = answer.message.trim();
    return lines.map(line => JSON.parse(line));
  }

  // Goes on to the tick `until` with input and output by functions, as `serve` does of a machine, in slices that double; `observe` is called with each event.
  serve({ get = () => '', put = () => {}, observe = () => {}, until = 1e9 } = {}) {
    for (let slice = 4096; ; ) {
      const events = this.run(Math.min(this.#from + slice, until)), found = events.filter(one => one.event === 'put').map(one => one.byte);
      events.forEach(one => observe(one));
      if (found.length) put(Uint8Array.from(found));
      if (this.outcome === 5) {
        const given = get();
        if (given === null) return this.outcome;
        if (given.length) this.input(given); else this.closeInput();
      } else if (this.outcome !== 0 || this.#from > until) return this.outcome;
      else slice *= 2;
    }
  }

  // Where it stands; it may be restored more than once.
  snapshot() {
    return { from: this.#from, least: this.#least, told: this.#told, given: [...this.#given], closed: this.#closed,
      outcome: this.outcome, detail: this.detail, message: this.message };
  }

  restore(place) {
    [this.#from, this.#least, this.#told, this.#given, this.#closed] = [place.from, place.least, place.told, [...place.given], place.closed];
    [this.outcome, this.detail, this.message] = [place.outcome, place.detail, place.message];
  }
}

export { compile, open };
