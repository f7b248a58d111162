// Asks the workers, each of which has one module: the compiler's, and, loaded when they are first wanted, the one that explains and the one that
// verifies and traces. Where the engine has no stack for a call in a worker, it is done on the page, which has more.
import { open } from './zikorape.js';
import { Kept } from './kept.js';

let tell = () => {}, busy = 0;

function count(by) {
  busy += by;
  tell(busy > 0);
}

class Caller {
  #name; #module; #loading; #worker; #waiting = new Map(); #asked = 0; #own; #kept;

  constructor(name) { this.#name = name; }

  load() {
    this.#loading ??= this.#fetch();
    return this.#loading;
  }

  async #fetch() {
    const fetched = await fetch(new URL(this.#name, import.meta.url));
    if (!fetched.ok) throw new Error(`${this.#name}: ${fetched.status}`);
    this.#module = await WebAssembly.compile(await fetched.arrayBuffer());
    this.#start();
  }

  #start() {
    this.#worker = new Worker(new URL('worker.js', import.meta.url), { type: 'module' });
    this.#worker.onmessage = ({ data }) => this.#settle(data.id, data);
    this.#worker.onerror = event => { for (const id of [...this.#waiting.keys()]) this.#settle(id, { failed: event.message ?? 'no worker' }); };
    this.#worker.postMessage({ module: this.#module });
  }

  #settle(id, answer) {
    const done = this.#waiting.get(id);
    if (!this.#waiting.delete(id)) return;
    count(-1);
    done(answer);
  }

  there(what, args) {
    return new Promise(done => {
      this.#waiting.set(++this.#asked, done);
      count(1);
      this.#worker.postMessage({ id: this.#asked, what, args });
    });
  }

  here(what, args) {
    try {
      this.#own ??= open(this.#module);
      if (what !== 'kept') return { answer: this.#own[what](...args), here: true };
      this.#kept ??= new Kept(this.#own);
      return { answer: this.#kept[args[0]](...args.slice(1)), here: true };
    } catch (error) {
      this.#own = this.#kept = undefined;
      return { failed: String(error) };
    }
  }

  stop() {
    if (this.#waiting.size === 0) return false;
    this.#worker.terminate();
    for (const id of [...this.#waiting.keys()]) this.#settle(id, { stopped: true });
    this.#start();
    return true;
  }
}

const compiler = new Caller('zikorape.wasm'), explainer = new Caller('diagnostics.wasm'), analyser = new Caller('analysis.wasm');
const BY = { explain: explainer, warn: explainer, verify: analyser, trace: analyser, explainRun: analyser };

// Fetches the compiler's module, and starts its worker; `whether` is told whether something is under way.
export function load(whether) {
  tell = whether;
  return compiler.load();
}

async function call(caller, what, args) {
  const got = await caller.there(what, args);
  return got.failed === undefined ? got : caller.here(what, args);
}

// { answer }, with `here` where the page did it; { stopped } after `stop`; or { failed } where the engine has no stack for it at all.
export const ask = (what, ...args) => call(compiler, what, args);

// The same of the modules that explain, warn, verify, trace and explain runs; { failed } too where they cannot be loaded.
export async function askWhy(what, ...args) {
  try {
    await BY[what].load();
  } catch (error) {
    return { failed: error.message, absent: true };
  }
  return call(BY[what], what, args);
}

let isHere = false;

// What is asked of the machine that is kept: by the worker, or, after moveMachine, by the page.
export const askMachine = async (what, ...args) => isHere ? compiler.here('kept', [what, ...args]) : compiler.there('kept', [what, ...args]);

// Keeps the machine on the page from now on: it must be loaded there. Whether that is new.
export function moveMachine() {
  const wasHere = isHere;
  isHere = true;
  return !wasHere;
}

// Ends what is under way; whether the machine that was kept is gone with it.
export function stop() {
  explainer.stop();
  analyser.stop();
  return compiler.stop();
}
