// A reader of the page: what each part of the browser's test uses.
import path from 'path';
import { spawnSync } from 'child_process';
import fs from 'fs';
import os from 'os';
import { launch } from './chromium.mjs';

export class Reader {
  passed = 0; failed = 0; skipped = 0;

  // `cc` is the program that the page is held against, `shots` a folder for screenshots, or nothing.
  static async begin(url, cc, shots) {
    const reader = new Reader();
    Object.assign(reader, { url, cc, shots, page: await launch() });
    return reader;
  }

  check(name, holds, seen = '') {
    if (holds) { this.passed++; return; }
    this.failed++;
    console.log(`FAIL ${name} ${String(seen).slice(0, 400)}`);
  }

  leaveOut(name) {
    this.skipped++;
    console.log(`left out: ${name}`);
  }

  async shot(name) { if (this.shots) await this.page.shot(path.join(this.shots, name + '.png')); }

  // What an expression of the page comes to, where `$` finds an element by its id.
  at(expression) { return this.page.run(`{ const $ = id => document.getElementById(id), all = what => [...document.querySelectorAll(what)]; ${expression} }`); }
  until(expression) { return this.page.until(`{ const $ = id => document.getElementById(id), all = what => [...document.querySelectorAll(what)]; ${expression} }`); }

  built() { return this.until(`!$('run').disabled && /After 0 instructions/.test($('status').textContent)`); }

  async example(name) {
    await this.page.set('examples', await this.at(`all('#examples option').find(o => o.text === '${name}').value`));
    return this.built();
  }

  tick(id, on) { return this.at(`$('${id}').checked = ${on}; $('${id}').dispatchEvent(new Event('change'))`); }

  // A command of the program over files in a folder of their own.
  program(words, files, input = '') {
    const folder = fs.mkdtempSync(path.join(os.tmpdir(), 'zikorape'));
    for (const [name, text] of files) fs.writeFileSync(path.join(folder, name), text);
    const done = spawnSync(this.cc, words, { cwd: folder, input, maxBuffer: 1 << 28 });
    fs.rmSync(folder, { recursive: true });
    return { status: done.status, output: done.stdout.toString('latin1'), message: done.stderr.toString('latin1') };
  }
}
