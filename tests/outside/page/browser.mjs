// node --experimental-websocket browser.mjs URL CC [SHOTS]: opens the page in headless chromium and uses it as a reader would, and holds what
// it shows against the program CC; a line for each check that fails, and the last line counts. SHOTS is a folder for screenshots. ONLY, in the
// environment, names the parts to try.
import { Reader } from './reader.mjs';
import { parts as onForms } from './on_forms.mjs';
import { parts as onRunning } from './on_running.mjs';
import { parts as onFindings } from './on_findings.mjs';
import { parts as onCourse } from './on_course.mjs';
import { parts as onLooks } from './on_looks.mjs';

const [url, cc, shots] = process.argv.slice(2), only = process.env.ONLY?.split(',');
const reader = await Reader.begin(url, cc, shots), { page } = reader;

async function load() {
  reader.check('the page becomes ready', await page.visit(url), await page.told('status'));
  reader.check('the first example is built', await reader.built(), await page.told('status'));
  reader.check('which is hello', await reader.at(`$('examples').selectedOptions[0].text === 'hello'`));
  reader.check('there are the ten examples of LANGUAGE.md and four', await reader.at(`$('examples').options.length`) === 15);
  await reader.shot('loaded');
}

async function deep() {
  const source = n => `int main(void) { return ${'('.repeat(n)}7${')'.repeat(n)}; }\n`;
  for (const n of [240, 241, 242, 243, 244, 245]) {
    await page.type(source(n));
    reader.check(`a source of ${n} parentheses is built`, await reader.built(), await page.told('status'));
  }
  await page.type(source(300));
  reader.check('one of 300 is refused', await page.tells('status', '/: 709 /'), await page.told('status'));
}

async function several() {
  await reader.example('backwards');
  reader.check('an example of two files is built', await reader.at(`$('file').options.length`) === 2 && await reader.built(), await page.told('status'));
  await page.click('run');
  reader.check('and runs', await reader.until(`$('output').textContent === 'stressed\\n'`), await page.told('output'));
  await page.set('file', '1');
  await page.type('int int;\n');
  reader.check('a fault in the other file is shown there', await reader.until(`$('fault').textContent.startsWith('511')`), await page.told('status'));
  await page.click('remove');
  reader.check('and without the file there is another', await page.tells('status', '/backwards.c:3: 232/'), await page.told('status'));
}

// A worker that has no stack for anything.
const SHALLOW = `globalThis.Worker = class {
  terminate() {}
  postMessage({ id }) { if (id) setTimeout(() => this.onmessage({ data: { id, failed: 'RangeError: Maximum call stack size exceeded' } })); }
}`;

async function withoutWorker() {
  reader.check('where the worker has no stack the page itself builds', await page.visit(url, SHALLOW) && await page.tells('status', '/on the page, since the worker had no stack for it/'), await page.told('status'));
  await page.click('run');
  reader.check('and runs', await page.tells('status', '/ended with status 0/'), await page.told('status'));
  await page.visit(url);
}

const parts = { load, ...onForms, ...onRunning, ...onFindings, ...onCourse, deep, several, withoutWorker, ...onLooks };
for (const [name, part] of Object.entries(parts)) {
  if (only && name !== 'load' && !only.includes(name)) continue;
  const begun = Date.now();
  try { await part(reader); } catch (error) { reader.check(name, false, error.stack); }
  if (process.env.TIMES) console.log(`${name}: ${Date.now() - begun} ms`);
}
console.log(`${reader.passed} passed, ${reader.failed} failed${reader.skipped ? `, ${reader.skipped} skipped` : ''}`);
await page.close();
process.exit(reader.failed ? 1 : 0);
