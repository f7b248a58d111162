// Point 7: how it looks, for whom, and how fast it is there.
import path from 'path';
import { spawnSync } from 'child_process';

const TABS = ['tokens', 'forms', 'listing', 'machine', 'variables', 'frames', 'both'];
const FIRST_BUILD = 1000;      // ms, of which the issue speaks

// In the page: the texts whose contrast is less than WCAG 2.2, 1.4.3, wants, and the edges of controls, 1.4.11.
const CONTRAST = `(() => {
  const parse = text => (/[\\d.]+/.test(text) ? text.match(/[\\d.]+/g).map(Number) : [0, 0, 0, 0]);
  const light = ([r, g, b]) => [r, g, b].map(c => c / 255).map(c => c <= 0.04045 ? c / 12.92 : ((c + 0.055) / 1.055) ** 2.4).reduce((sum, c, k) => sum + c * [0.2126, 0.7152, 0.0722][k], 0);
  const ratio = (one, other) => { const [a, b] = [light(one), light(other)].sort((x, y) => y - x); return (a + 0.05) / (b + 0.05); };
  const backOf = element => { for (let one = element; one; one = one.parentElement) { const back = parse(getComputedStyle(one).backgroundColor); if ((back[3] ?? 1) > 0.99) return back; } return parse(getComputedStyle(document.documentElement).backgroundColor); };
  const failed = [];
  const walker = document.createTreeWalker(document.body, NodeFilter.SHOW_TEXT);
  let texts = 0;
  for (let node = walker.nextNode(); node; node = walker.nextNode()) {
    const element = node.parentElement;
    if (node.textContent.trim() === '' || element.closest('#marks, script') || element.getClientRects().length === 0 || element.closest(':disabled')) continue;
    texts++;
    const style = getComputedStyle(element), size = parseFloat(style.fontSize), isLarge = size >= 24 || size >= 18.66 && style.fontWeight >= 700;
    const found = ratio(parse(style.color), backOf(element));
    if (found < (isLarge ? 3 : 4.5)) failed.push(element.tagName + '#' + element.id + '.' + element.className + ' ' + node.textContent.trim().slice(0, 20) + ' ' + found.toFixed(2));
  }
  const ink = parse(getComputedStyle(document.getElementById('source')).color);
  for (const mark of document.querySelectorAll('#marks .mark, #marks .next, #marks .joined')) {
    texts++;
    const found = ratio(ink, backOf(mark)) ;
    if (found < 4.5) failed.push('mark ' + mark.className + ' ' + found.toFixed(2));
  }
  for (const control of document.querySelectorAll('button:not(:disabled), input, select, #editor')) {
    const style = getComputedStyle(control);
    if (control.getClientRects().length === 0 || style.borderTopWidth === '0px' || control.type === 'range' || control.classList.contains('token')) continue;
    const found = ratio(parse(style.borderTopColor), backOf(control.parentElement)), own = ratio(backOf(control), backOf(control.parentElement));
    if (found < 3 && own < 3) failed.push('edge of ' + control.tagName + '#' + control.id + ' ' + found.toFixed(2));
  }
  return { texts, failed };
})()`;

// In the page: ids that are twice, references to none, controls that a pointer can hardly hit (2.5.8; those in a line of text and in tables are not meant).
const STRUCTURE = `(() => {
  const failed = [], ids = [...document.querySelectorAll('[id]')].map(one => one.id);
  for (const id of new Set(ids)) if (ids.filter(one => one === id).length > 1) failed.push('twice ' + id);
  for (const name of ['aria-controls', 'aria-labelledby', 'aria-describedby', 'for']) for (const one of document.querySelectorAll('[' + name + ']'))
    for (const id of one.getAttribute(name).split(' ')) if (!document.getElementById(id)) failed.push(name + ' ' + id);
  for (const one of document.querySelectorAll('button, input, select')) {
    const box = one.getBoundingClientRect();
    if (box.width > 0 && !one.closest('td, .place, #findings') && (box.width < 24 || box.height < 24) && !one.classList.contains('token') && !one.classList.contains('place')) failed.push('small ' + one.id + ' ' + box.width + 'x' + box.height);
  }
  if (document.documentElement.lang !== 'en' || document.querySelectorAll('h1').length !== 1 || !document.querySelector('main')) failed.push('landmarks');
  return failed;
})()`;

async function access(reader) {
  const { page } = reader;
  await reader.example('sum');
  await reader.tick('verify', true);
  await reader.until(`all('#marks .mark.shown').length > 0`);
  await page.click('statement');
  await reader.until(`all('#marks .next').length + Number($('count').value) > 0`);
  for (const scheme of ['light', 'dark']) {
    await page.scheme(scheme);
    for (const tab of TABS) {
      await page.click('tab-' + tab);
      if (tab === 'listing') await reader.at(`all('#listing-lines .word')[9].focus()`);
      if (tab === 'forms') await reader.until(`all('#form-nodes .node').length > 3`);
      if (tab === 'variables') await reader.until(`all('#pictures .frame').length > 0`);
      const { texts, failed } = await page.run(CONTRAST);
      reader.check(`contrast is enough, ${scheme}, ${tab}`, texts > 60 && failed.length === 0, `${texts}: ${failed.join('; ')}`);
      const wrong = await page.run(STRUCTURE);
      reader.check(`ids, references and sizes are right, ${scheme}, ${tab}`, wrong.length === 0, wrong.join('; '));
    }
  }
  await reader.tick('verify', false);
}

// Where the tab key goes: whether that is the order of the page, which controls it misses, and which do not show that they have the focus.
async function walked(reader) {
  const { page } = reader;
  await reader.at(`document.activeElement.blur(); getSelection().removeAllRanges(); scrollTo(0, 0); document.body.tabIndex = -1; document.body.focus(); document.body.removeAttribute('tabindex')`);
  const met = [], faint = [];
  for (let k = 0; k < 200; k++) {
    await page.key('Tab', 9);
    const [id, at, outline] = await reader.at(`(() => { const one = document.activeElement; return [one.id || one.tagName, [...document.querySelectorAll('*')].indexOf(one), getComputedStyle(one).outlineStyle + parseFloat(getComputedStyle(one).outlineWidth)]; })()`);
    if (met.some(one => one.id === id && one.at === at) || id === 'BODY') break;
    met.push({ id, at });
    if (!/solid[2-9]/.test(outline)) faint.push(`${id} ${outline}`);
  }
  const wanted = await reader.at(`all('button, input, select, textarea, [tabindex="0"], summary').filter(one => one.getClientRects().length > 0 && !one.disabled && one.tabIndex >= 0).map(one => one.id || one.tagName)`);
  return { met: met.map(one => one.id), isInOrder: met.every((one, k) => k === 0 || one.at > met[k - 1].at), missed: wanted.filter(id => !met.some(one => one.id === id)), faint };
}

async function focus(reader) {
  await reader.page.click('tab-machine');
  const { met, isInOrder, missed, faint } = await walked(reader);
  reader.check('the tab key goes in the order of the page', met.length > 25 && isInOrder, met.join(' '));
  reader.check('and to each control', missed.length === 0, missed.join(' '));
  reader.check('each of which shows that it has the focus', faint.length === 0, faint.join('; '));
}

const found = script => async ({ page }) => { const got = await page.run(script); return (got.failed ?? got).join('; '); };
const wide = ({ page }) => page.run(`document.documentElement.scrollWidth > 360 ? 'wide' : ''`);
const style = text => `{ const one = document.createElement('style'); one.className = 'planted'; one.textContent = ${JSON.stringify(text)}; document.head.append(one); }`;
const put = (tag, set, where = 'main') => `{ const one = document.createElement('${tag}'); one.classList.add('planted'); ${set}; document.querySelector('${where}').append(one); }`;

// Faults that are put into the page, each with what undoes it, the check that has to find it, and what that then says.
const PLANTED = {
  'a pale text': [style('#status { color: #8a8a8a !important; background: #ffffff !important; }'), '', found(CONTRAST), /#status/],
  'a dark mark': [put('span', `one.classList.add('mark'); one.textContent = 'x'; one.style.background = 'rgb(70, 70, 70)'`, '#marks'), '', found(CONTRAST), /mark .*planted/],
  'a control without an edge': [style('#count { border-color: #fafafa !important; background: #ffffff !important; }'), '', found(CONTRAST), /edge of INPUT#count/],
  'an id that is twice': [put('p', `one.id = 'status'`), '', found(STRUCTURE), /twice status/],
  'a label for nothing': [put('label', `one.setAttribute('for', 'nothing')`), '', found(STRUCTURE), /for nothing/],
  'a small button': [style('#run { width: 12px !important; min-width: 0 !important; padding: 0 !important; overflow: hidden; }'), '', found(STRUCTURE), /small run/],
  'a page without a language': [`document.documentElement.lang = ''`, `document.documentElement.lang = 'en'`, found(STRUCTURE), /landmarks/],
  'a focus that is not seen': [style(':focus, :focus-visible { outline: none !important; }'), '', async reader => (await walked(reader)).faint.join(' '), /run/],
  'an order of its own': [`document.getElementById('run').tabIndex = 7`, `document.getElementById('run').removeAttribute('tabindex')`, async reader => { const { isInOrder, missed } = await walked(reader); return `in order: ${isInOrder}, missed: ${missed.join(' ')}`; }, /false|run/],
  'a control that is not reached': [`document.getElementById('count').onfocus = event => event.target.blur()`, `document.getElementById('count').onfocus = null`, async reader => (await walked(reader)).missed.join(' '), /./],
  'a button without a name': [put('button', ''), '', async reader => (await nameless(reader)).join(' '), /button/],
  'a line that is too long': [put('div', `one.style.width = '900px'; one.textContent = 'x'`), '', wide, /wide/],
};

// Each check of how the page looks finds the fault that it is for.
async function planted(reader) {
  const { page } = reader;
  await page.scheme('light');
  await reader.example('sum');
  await page.click('tab-machine');
  await page.width(360);
  for (const [name, [put, undo, look, says]] of Object.entries(PLANTED)) {
    const before = await look(reader);
    await page.run(`{ ${put} }`);
    const after = await look(reader);
    await page.run(`{ ${undo}; for (const one of document.querySelectorAll('.planted')) one.remove(); }`);
    reader.check(`${name} is found`, !says.test(before) && says.test(after), `${before} | ${after}`);
  }
  await page.width(0);
}

async function tabKeys(reader) {
  const { page } = reader;
  await page.click('tab-tokens');
  await reader.at(`$('tab-tokens').focus()`);
  await page.key('ArrowRight', 39);
  reader.check('an arrow moves to the next tab', await reader.at(`document.activeElement.id === 'tab-forms' && !$('forms').hidden && $('tokens').hidden`));
  await page.key('End', 35);
  reader.check('End moves to the last', await reader.at(`document.activeElement.id === 'tab-both'`));
  await page.type('int main(void) { return 6; }\n');
  await page.key('Enter', 13, 2);
  reader.check('Ctrl+Enter builds', await reader.built(), await page.told('status'));
  await page.key('F8', 119);
  reader.check('F8 runs', await page.tells('status', '/ended with status 6/'), await page.told('status'));
}

// WCAG 2.2, 1.4.10: nothing is wider than 320 pixels of CSS, nor than 360.
async function narrow(reader) {
  const { page } = reader;
  await page.scheme('light');
  await reader.example('sum');
  for (const width of [320, 360]) {
    await page.width(width);
    for (const tab of TABS) {
      await page.click('tab-' + tab);
      if (tab === 'listing') await reader.at(`all('#listing-lines .word')[2].focus()`);
      if (tab === 'variables') await reader.until(`all('#pictures .frame').length + $('event-says').textContent.length > 0`);
      reader.check(`at ${width} pixels nothing is wider than the page, ${tab}`, await page.run(`document.documentElement.scrollWidth <= ${width}`), await page.run('String(document.documentElement.scrollWidth)'));
    }
  }
  await page.run('scrollTo(0, 0)');
  await reader.shot('narrow_360');
  await reader.at(`$('tab-variables').click(); document.querySelector('[role=tablist]').scrollIntoView()`);
  await reader.shot('narrow_360_variables');
  await page.width(1280, 900, false);
  await page.run('scrollTo(0, 0)');
  await reader.shot('wide_1280');
  await page.width(0);
  const light = await page.scheme('light'), dark = await page.scheme('dark');
  reader.check('it is dark where the reader wants it', light !== dark, light);
  await reader.shot('dark');
  await page.scheme('light');
}

async function controls({ page }) {
  const { nodes } = await page.send('Accessibility.getFullAXTree');
  return nodes.filter(n => !n.ignored && ['button', 'textbox', 'combobox', 'slider', 'tab', 'tabpanel', 'checkbox', 'meter', 'region', 'list'].includes(n.role?.value) && !(n.role.value === 'list' && !n.focusable));
}

const nameless = async reader => (await controls(reader)).filter(n => !n.name?.value && n.role.value !== 'list').map(n => n.role.value);

async function names(reader) {
  const { page } = reader, all = await controls(reader), without = await nameless(reader);
  reader.check('there are controls for a screen reader', all.length > 30, all.length);
  reader.check('each has a name', without.length === 0, without.join(' '));
  const elsewhere = page.fetched.filter(at => new URL(at).origin !== new URL(reader.url).origin && !/^(data|blob|about|chrome)/.test(at));
  reader.check('nothing is fetched from elsewhere', page.fetched.length > 3 && elsewhere.length === 0, elsewhere.join(' '));
  reader.check('nothing is thrown', page.thrown.length === 0, page.thrown.join('; '));
}

const HELLO = 'int rv_getbyte(void);\nint main(void) { return rv_getbyte() + 1; }\n';

// In the page: the milliseconds from a compiled module to the first file it has built, for a module that the engine has not seen: a section with
// random bytes stands behind it.
const FIRST = `(async () => {
  const { open } = await import('./zikorape.js'), bytes = new Uint8Array(await (await fetch('zikorape.wasm')).arrayBuffer());
  const module = await WebAssembly.compile(Uint8Array.from([...bytes, 0, 10, 1, 120, ...crypto.getRandomValues(new Uint8Array(8))])), start = performance.now();
  const built = open(module).build([['main.c', ${JSON.stringify(HELLO)}]], 'main.c');
  return built.status === 0 ? performance.now() - start : NaN;
})()`;

// A phone is taken for one with a processor four times as slow.
async function first(reader) {
  const { page } = reader, times = [];
  await page.send('Emulation.setCPUThrottlingRate', { rate: 4 });
  for (let k = 0; k < 5; k++) times.push(await page.run(FIRST));
  await page.send('Emulation.setCPUThrottlingRate', { rate: 1 });
  console.log(`the first build, four times as slow: ${times.map(ms => Math.round(ms)).join(', ')} ms`);
  reader.check('the first build is under a second', Math.min(...times) < FIRST_BUILD, times.join());
}

const LOOP = 'int main(void) {\n    unsigned s = 0;\n    for (unsigned i = 0; i < 3000000u; i++)\n        s = s * 3u + i;\n    return (int)(s & 127u);\n}\n';
const LIBRARY = `
import sys, time
sys.path.insert(0, sys.argv[1] + '/bindings/python')
import zikorape
zk = zikorape.Library(sys.argv[1] + '/release/libzikorape.so')
with zk.machine(zk.build({'main.c': sys.argv[2]}, 'main.c').check().output) as machine:
    begun = time.process_time()
    while machine.run(1000000) == 0:
        pass
    print(machine.steps / (time.process_time() - begun))
`;

// Instructions a second of processor time, of the machine that is kept: on the page, and in the library of this tree; of each the best of three turns, taken in
// turn, since other work on the machine slows one turn and not the next.
async function speed(reader) {
  const { page } = reader, root = path.join(import.meta.dirname, '..', '..', '..');
  const native = () => Number(spawnSync('python3', ['-c', LIBRARY, root, LOOP], { encoding: 'utf8' }).stdout || NaN);
  if (!native()) return reader.leaveOut('the speed beside that of the library: release/libzikorape.so is not to be had');
  const run = `(() => { const m = zk.machine(file); while (m.run(1e6) === 0); const n = m.steps(); m.free(); return n; })()`;
  await reader.at(`(async () => { const { open } = await import('./zikorape.js'); globalThis.zk = open(await WebAssembly.compile(await (await fetch('zikorape.wasm')).arrayBuffer())); globalThis.file = zk.build([['main.c', ${JSON.stringify(LOOP)}]], 'main.c').output; })()`);
  await page.run(run);
  let own = 0, library = 0;
  for (let turn = 0; turn < 3; turn++) {
    const begun = await page.cpu(), steps = await page.run(run);
    own = Math.max(own, steps / (await page.cpu() - begun));
    library = Math.max(library, native());
  }
  console.log(`instructions a second: ${(own / 1e6).toFixed(1)} million on the page, ${(library / 1e6).toFixed(1)} million in the library`);
  reader.check('a run takes less than twice as long as in the library', own * 2 > library, own / library);
}

export const parts = { tabKeys, access, focus, planted, narrow, first, speed, names };
