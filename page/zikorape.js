// Zikorape in WebAssembly: `open(module)` answers the calls of zikorape.h over Uint8Arrays and strings. It runs in Node, in a page
// and in a worker. A call that the engine has no stack for throws (RangeError, RuntimeError); the instance is then in no known state:
// open a new one.

const bytesOf = text => typeof text === 'string' ? new TextEncoder().encode(text) : text;

// The texts of the files, one after another, and their lengths.
function given(files) {
  const parts = files.flatMap(([name, text]) => [bytesOf(name), bytesOf(text)]);
  const texts = new Uint8Array(parts.reduce((sum, part) => sum + part.length, 0));
  let at = 0;
  for (const part of parts) { texts.set(part, at); at += part.length; }
  const lengths = BigUint64Array.from(parts, part => BigInt(part.length));
  return { texts, lengths: new Uint8Array(lengths.buffer), count: files.length };
}

export const compile = bytes => new WebAssembly.Module(bytes);

export function open(module) {
  const { exports: c } = new WebAssembly.Instance(module, {});
  const size = n => BigInt(n);
  const view = (at, n) => new Uint8Array(c.memory.buffer, Number(at), n);

  function take(n) {
    const at = c.zk_malloc(size(Math.max(n, 1)));
    if (Number(at) === 0) throw new RangeError('no memory for the call');
    return at;
  }

  // A call with what is lent to it in memory: slices are copied in, rooms are for what it writes, and all is given back.
  function lending(work) {
    const held = [];
    const room = n => { const at = take(n); held.push(at); return at; };
    const put = bytes => { const at = room(bytes.length); view(at, bytes.length).set(bytes); return at; };
    const slice = text => { const bytes = bytesOf(text); return [put(bytes), size(bytes.length)]; };
    try { return work({ room, put, slice }); } finally { for (const at of held) c.zk_free(at); }
  }

  // Calls with buffers, and again with larger ones where they were too small.
  function answer(call, outs = 1 << 16, lines = 1 << 12) {
    const got = lending(({ room, put, slice }) => {
      const out = room(outs), message = room(lines), sizes = room(16);
      const status = call({ put, slice }, [out, size(outs), message, size(lines), sizes]) >>> 0;
      const [output, line] = [...new BigUint64Array(c.memory.buffer, Number(sizes), 2)].map(Number);
      if (output > outs || line > lines) return { wants: [Math.max(outs, output), Math.max(lines, line)] };
      return { status, output: view(out, output).slice(), message: new TextDecoder().decode(view(message, line)) };
    });
    return got.wants ? answer(call, ...got.wants) : got;
  }

  function over(call, files, main, ...more) {
    const { texts, lengths, count } = given(files);
    return answer(({ put, slice }, rooms) => {
      const others = more.flatMap(part => typeof part === 'bigint' || typeof part === 'number' ? [part] : slice(part));
      return call(...slice(texts), put(lengths), size(count), ...slice(main), ...others, ...rooms);
    });
  }

  // The machine after `count` instructions, or after at least `after` where the one at `halt` is next; and `length` bytes of its memory.
  function step(file, input, count, after, halt, from, length, outs = 1 << 12) {
    const got = lending(({ room, slice }) => {
      const window = room(length), out = room(outs), seen = room(152);
      const outcome = c.zk_step(...slice(file), ...slice(input), size(count), size(after), halt, from, window, size(length), out, size(outs), seen) >>> 0;
      const words = new Uint32Array(c.memory.buffer, Number(seen), 34).slice();
      const [steps, output] = [...new BigUint64Array(c.memory.buffer, Number(seen) + 136, 2)].map(Number);
      if (output > outs) return { wants: output };
      return {
        outcome, detail: words[0], pc: words[1], registers: [...words.slice(2)], steps,
        window: view(window, length).slice(), output: view(out, output).slice(),
      };
    });
    return got.wants ? step(file, input, count, after, halt, from, length, got.wants) : got;
  }

  // A machine that is kept, before the first instruction of the file. Its memory is that of the module: free() gives it back.
  function machine(file) {
    const at = take(Number(c.zk_machine_size()));
    const ask = (number, a = 0, b = 0) => Number(c.zk_machine_ask(at, number, BigInt(a), BigInt(b)));
    let given = [], closed = false, taken = 0;
    const free = () => { c.zk_machine_clear(at); c.zk_free(at); };
    const must = code => { if (code) throw new Error(code === 801 ? '801 out of memory' : `${code} not loaded`); };
    c.zk_machine_place(at);
    try {
      for (const byte of bytesOf(file)) must(ask(0, byte));
      must(ask(1));
    } catch (error) { free(); throw error; }
    const self = {
      // 0 it goes on, 1 it ended, 2 it trapped, 3 memory ran out, 5 it wants input
      run: (max = 1e9, to = 1) => ask(4, max, to),
      step: () => ask(4, 1, 1),
      detail: () => ask(5),
      steps: () => ask(6),
      pc: () => ask(8, 32),
      registers: () => Array.from({ length: 32 }, (_, k) => ask(8, k)),
      read: (from, length) => Uint8Array.from({ length }, (_, k) => ask(10, from + k)),
      // outside the theorem
      write: (from, bytes) => [...bytes].reduce((n, byte, k) => n + ask(11, from + k, byte), 0),
      setRegister: (number, value) => ask(9, number, value >>> 0) === 0,
      input(text) {
        for (const byte of bytesOf(text)) {
          const code = ask(2, byte);
          if (code === 1) throw new Error('the input is closed');
          must(code);
          given.push(byte);
        }
      },
      closeInput() { ask(3); closed = true; },
      output() {
        const found = [];
        for (let byte = ask(7); byte < 256; byte = ask(7)) found.push(byte);
        taken += found.length;
        return Uint8Array.from(found);
      },
      snapshot: () => ({ steps: ask(6), given: [...given], closed, taken }),
      // by a run from the start over what had been given
      restore(snapshot) {
        must(ask(1));
        given = []; closed = false; taken = 0;
        self.input(Uint8Array.from(snapshot.given));
        if (snapshot.closed) self.closeInput();
        ask(4, snapshot.steps, 1);
        if (ask(6) !== snapshot.steps) must(801);
        while (taken < snapshot.taken && ask(7) < 256) taken++;
      },
      free,
    };
    return self;
  }

  const text = call => lending(({ room }) => {
    const out = room(256), length = Number(call(out, 256n));
    return new TextDecoder().decode(view(out, Math.min(length, 256)));
  });

  return {
    build: (files, main) => over(c.zk_build, files, main),
    buildWith: (files, main, stack) => over(c.zk_build_with, files, main, stack),
    functions: (files, main, stack = 1 << 20) => over(c.zk_functions, files, main, stack),
    image: (file, form = 0, name = 'a.out') => answer(({ slice }, rooms) => c.zk_image(...slice(file), ...slice(name), form, ...rooms)),
    frames: (files, main) => over(c.zk_frames, files, main),
    preprocess: (files, main) => over(c.zk_preprocess, files, main),
    list: (files, main) => over(c.zk_list, files, main),
    form: (files, main, form) => over(c.zk_form, files, main, form),
    // of a module that has them
    warn: (files, main, stack = 1 << 20) => over(c.zk_warn, files, main, stack),
    verify: (files, main, stack = 1 << 20) => over(c.zk_verify, files, main, stack),
    explain: (files, main, stack = 1 << 20) => over(c.zk_explain, files, main, stack),
    explainRun: (files, main, input = '', max = 1e9) => over(c.zk_explain_run, files, main, input, BigInt(max)),
    trace: (files, main, input = '', isOpen = 0, max = 1e9, from = 0) => over(c.zk_trace, files, main, input, isOpen, BigInt(max), BigInt(from)),
    interpret: (files, main, input = '', max = 1e9) => over(c.zk_interpret, files, main, input, BigInt(max)),
    run: (file, name, input = '', max = 1e9) =>
      answer(({ slice }, rooms) => c.zk_run(...slice(file), ...slice(name), ...slice(input), BigInt(max), ...rooms)),
    step,
    machine,
    message: code => text((out, n) => c.zk_message(code, out, n)),
    version: () => text((out, n) => c.zk_version(out, n)),
    memory: () => c.memory.buffer.byteLength,
  };
}
