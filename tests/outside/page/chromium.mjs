// A headless chromium, and a page in it that is used as a reader would: by keys, clicks and what is shown. CHROMIUM names another browser.
import { spawn } from 'child_process';
import fs from 'fs';
import os from 'os';
import path from 'path';

const FLAGS = ['--headless=new', '--no-sandbox', '--disable-gpu', '--remote-debugging-port=0', '--window-size=1200,900'];
const LONGEST = Number(process.env.LONGEST ?? 60000);      // ms that something may take before it is taken for missing
const pause = ms => new Promise(over => setTimeout(over, ms));

export async function launch() {
  const profile = fs.mkdtempSync(path.join(os.tmpdir(), 'zikorape'));
  const browser = spawn(process.env.CHROMIUM ?? 'chromium', [...FLAGS, `--user-data-dir=${profile}`, 'about:blank'], { stdio: ['ignore', 'ignore', 'pipe'] });
  const where = await new Promise(found => {
    let told = '';
    browser.stderr.on('data', data => { told += data; const at = /DevTools listening on (\S+)/.exec(told); if (at) found(at[1]); });
  });
  const socket = new WebSocket(where);
  await new Promise(ready => { socket.onopen = ready; });
  const over = new Promise(ended => { browser.on('exit', ended); });
  return new Tab(socket, async () => { browser.kill(); await over; fs.rmSync(profile, { recursive: true, force: true, maxRetries: 9, retryDelay: 100 }); });
}

class Tab {
  fetched = [];       // the addresses that were asked for
  thrown = [];        // what no script caught
  #socket; #waiting = new Map(); #last = 0; #session; #end;

  constructor(socket, end) {
    this.#socket = socket;
    this.#end = end;
    socket.onmessage = ({ data }) => this.#hear(JSON.parse(data));
  }

  #hear(said) {
    if (said.id) { this.#waiting.get(said.id)?.(said.result ?? said); this.#waiting.delete(said.id); }
    if (said.method === 'Network.requestWillBeSent') this.fetched.push(said.params.request.url);
    if (said.method === 'Runtime.exceptionThrown') this.thrown.push(said.params.exceptionDetails.exception?.description ?? said.params.exceptionDetails.text);
  }

  send(method, params = {}, isOfBrowser = false) {
    return new Promise(answered => {
      this.#waiting.set(++this.#last, answered);
      this.#socket.send(JSON.stringify({ id: this.#last, method, params, sessionId: isOfBrowser ? undefined : this.#session }));
    });
  }

  // The seconds of processor time that the pages have taken.
  async cpu() {
    const { processInfo } = await this.send('SystemInfo.getProcessInfo', {}, true);
    return processInfo.filter(one => one.type === 'renderer').reduce((sum, one) => sum + one.cpuTime, 0);
  }

  // Opens an address in a new tab, where `first` runs before the page's scripts; whether the page became ready.
  async visit(address, first = '') {
    this.#session = undefined;
    const { targetId } = await this.send('Target.createTarget', { url: 'about:blank' });
    ({ sessionId: this.#session } = await this.send('Target.attachToTarget', { targetId, flatten: true }));
    for (const part of ['Page', 'Runtime', 'Network', 'Accessibility']) await this.send(part + '.enable');
    await this.send('Page.addScriptToEvaluateOnNewDocument', { source: first });
    await this.send('Page.navigate', { url: address });
    return this.until(`document.documentElement.dataset.ready === 'true'`);
  }

  async run(expression) {
    return (await this.send('Runtime.evaluate', { expression, awaitPromise: true, returnByValue: true })).result?.value;
  }

  async until(expression, ms = LONGEST) {
    for (const start = Date.now(); Date.now() - start < ms; await pause(50)) if (await this.run(expression)) return true;
    return false;
  }

  told(id) { return this.run(`document.getElementById('${id}').textContent`); }
  tells(id, pattern) { return this.until(`${pattern}.test(document.getElementById('${id}').textContent)`); }
  click(id) { return this.run(`document.getElementById('${id}').click()`); }
  set(id, value, event = 'change') {
    return this.run(`(() => { const e = document.getElementById('${id}'); e.value = ${JSON.stringify(value)}; e.dispatchEvent(new Event('${event}')); })()`);
  }

  async key(name, code, modifiers = 0) {
    for (const type of ['rawKeyDown', 'keyUp']) await this.send('Input.dispatchKeyEvent', { type, key: name, code: name, windowsVirtualKeyCode: code, modifiers });
  }

  async type(source) {
    await this.run(`(() => { const s = document.getElementById('source'); s.focus(); s.select(); })()`);
    await this.send('Input.insertText', { text: source });
  }

  async shot(file) {
    fs.writeFileSync(file, Buffer.from((await this.send('Page.captureScreenshot', { format: 'png' })).data, 'base64'));
  }

  // Makes the window so wide, or as it was.
  async width(pixels, height = 740, mobile = true) {
    if (pixels) await this.send('Emulation.setDeviceMetricsOverride', { width: pixels, height, deviceScaleFactor: 1, mobile });
    else await this.send('Emulation.clearDeviceMetricsOverride');
    if (pixels) await this.until(`innerWidth === ${pixels}`);
    await this.drawn();
  }

  // Two frames later what was changed is laid out and painted.
  drawn() { return this.run('new Promise(over => requestAnimationFrame(() => requestAnimationFrame(() => over(true))))'); }

  async scheme(value) {
    await this.send('Emulation.setEmulatedMedia', { features: [{ name: 'prefers-color-scheme', value }] });
    await this.until(`matchMedia('(prefers-color-scheme: ${value})').matches`);
    await this.drawn();
    return this.run('getComputedStyle(document.body).backgroundColor');
  }

  async close() {
    await Promise.race([this.send('Browser.close'), pause(2000)]);
    await this.#end();
  }
}
