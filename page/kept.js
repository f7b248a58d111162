// The machine that the worker keeps: a step costs a step. A step back is a run from the start over what had been given.
const HEAD = 32768;            // bytes of the output that are handed to the page from its beginning, and as many from its end
const WANTS_INPUT = 5;

export class Kept {
  #zk; #machine; #input = []; #closed = false; #output = []; #put = 0; #outcome = 0;

  constructor(zk) { this.#zk = zk; }

  // Loads a file, with the input that is known; `closed` where none comes after it. Answers the code for which it is not loaded, or 0.
  load(file, input, closed) {
    this.#machine?.free();
    this.#machine = undefined;
    try {
      this.#machine = this.#zk.machine(file);
    } catch (error) {
      const code = Number(/^\D*(\d+)/.exec(String(error))?.[1]);
      if (!code) throw error;
      return code;
    }
    [this.#input, this.#closed] = [[], false];
    this.give(input, closed);
    this.#begin();
    return 0;
  }

  #begin() {
    [this.#output, this.#put, this.#outcome] = [[], 0, 0];
  }

  // More input, and whether that is all.
  give(input, closed) {
    this.#machine.input(input);
    this.#input.push(...input);
    if (closed && !this.#closed) { this.#machine.closeInput(); this.#closed = true; }
    return this.#input.length;
  }

  #take(outcome) {
    const bytes = this.#machine.output();
    this.#outcome = outcome;
    this.#put += bytes.length;
    for (const byte of bytes) this.#output.push(byte);
    if (this.#output.length > 4 * HEAD) this.#output.splice(HEAD, this.#output.length - 2 * HEAD);
    return outcome;
  }

  #rewind() {
    this.#machine.restore({ steps: 0, given: this.#input, closed: this.#closed, taken: 0 });
    this.#begin();
  }

  // At most so many instructions, or, after one, to where one at the address `halt` is next.
  run(most, halt) {
    this.#take(this.#machine.run(most, halt));
    return this.#outcome;
  }

  // The same for several addresses, one instruction at a time; whether it stands at one of them.
  runTo(most, halts) {
    const wanted = new Set(halts), end = this.#machine.steps() + most;
    while (this.#machine.steps() < end) {
      if (this.#take(this.#machine.step()) !== 0) return false;
      if (wanted.has(this.#machine.pc())) return true;
    }
    return false;
  }

  // To where so many instructions are done.
  to(count) {
    if (count < this.#machine.steps()) this.#rewind();
    const left = count - this.#machine.steps();
    if (left > 0) this.run(left, 1);
    return this.#outcome;
  }

  // Back to the last place before this one that is at one of the addresses; to the start where there is none.
  backTo(halts) {
    const wanted = new Set(halts), here = this.#machine.steps();
    for (let window = 256; ; window *= 16) {
      const from = Math.max(0, here - window), found = this.#lastOf(wanted, from, here);
      if (found !== undefined || from === 0) return this.to(found ?? 0);
    }
  }

  #lastOf(wanted, from, here) {
    let found;
    this.to(from);
    while (this.#machine.steps() < here) {
      if (wanted.has(this.#machine.pc())) found = this.#machine.steps();
      if (this.#take(this.#machine.step()) !== 0) break;
    }
    return found;
  }

  // The places among these addresses to which a run from the start comes, in order, up to the instruction `count`; as numbers of the addresses.
  arrivals(file, halts, count) {
    const numbers = new Map(halts.map((address, k) => [address, k])), found = [];
    const machine = this.#zk.machine(file);
    try {
      machine.input(Uint8Array.from(this.#input));
      if (this.#closed) machine.closeInput();
      while (true) {
        const number = numbers.get(machine.pc());
        if (number !== undefined) found.push(number);
        if (machine.steps() >= count || machine.step() !== 0) break;
      }
    } finally { machine.free(); }
    return found;
  }

  // Where the machine stands, and bytes of its memory.
  state(from, length) {
    const machine = this.#machine, all = this.#output;
    const output = Uint8Array.from(all.length <= 2 * HEAD ? all : [...all.slice(0, HEAD), ...all.slice(-HEAD)]);
    return {
      outcome: this.#outcome, detail: machine.detail(), steps: machine.steps(), pc: machine.pc(), registers: machine.registers(),
      window: machine.read(from, length), output, put: this.#put, given: this.#input.length, waits: this.#outcome === WANTS_INPUT,
    };
  }
}
