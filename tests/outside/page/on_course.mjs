// Point 6: the course, the tour, and a link.
import fs from 'fs';
import path from 'path';

const ROOT = path.join(import.meta.dirname, '..', '..', '..');

async function course(reader) {
  const { page } = reader;
  const lessons = await reader.at(`(async () => (await import('./course.js')).lessons.map(one => ({ example: one.example, questions: one.questions.length, looks: one.questions.map(q => q.look) })))()`);
  reader.check('there are ten lessons, hello first', lessons.length === 10 && lessons[0].example === 'hello');
  reader.check('with three questions each', lessons.every(one => one.questions === 3));
  await page.set('guide-kind', 'course');
  for (const [k, lesson] of lessons.entries()) {
    const name = lesson.example;
    reader.check(`lesson ${k + 1} has its example`, await page.tells('guide-title', `/^${k + 1} of 10: ${name}$/`) && await reader.until(`$('examples').selectedOptions[0]?.text === '${name}'`) && await reader.built(), await page.told('guide-title'));
    for (const [n, look] of lesson.looks.entries()) await looks(reader, `${name}, question ${n + 1}`, n, look);
    if (k < lessons.length - 1) await page.click('guide-next');
  }
  await reader.tick('verify', false);
  await reader.shot('course');
}

async function looks(reader, name, n, look) {
  await reader.at(`all('#guide-text .look')[${n}].click()`);
  reader.check(`${name}: its panel is shown`, await reader.until(`!$('${look.tab}').hidden`));
  if (look.line) reader.check(`${name}: its line is marked`, await reader.until(`all('#lines .joined').map(one => one.textContent).join() === '${look.line}'`), await reader.at(`all('#lines .joined').map(one => one.textContent).join()`));
  if (look.line && look.tab === 'listing') reader.check(`${name}: and has words`, await reader.until(`all('#listing-lines .joined').length > 0`));
  if (look.line && look.tab === 'forms') reader.check(`${name}: and has nodes`, await reader.until(`all('#form-nodes .joined').length > 0`));
  if (look.until) reader.check(`${name}: the machine comes to it`, await reader.until(`all('#lines .next').map(one => one.textContent).join() === '${look.until}'`), await reader.page.told('where'));
  if (look.until && look.tab === 'variables') reader.check(`${name}: with its picture`, await reader.until(`all('#pictures .frame').length > 0`));
  if (look.until && look.tab === 'frames') reader.check(`${name}: with its calls`, await reader.until(`all('#calls .call').length > 0`));
  if (look.end) reader.check(`${name}: it runs to its end`, await reader.until(`/ended with status/.test($('where').textContent)`));
  if (look.verify) reader.check(`${name}: it is verified`, await reader.until(`/^(Verified|Not|Defined)/.test($('verdict').textContent)`), await reader.page.told('verdict'));
  if (look.tab === 'both') reader.check(`${name}: both are run`, await reader.until(`/^(They agree|The abstract machine)/.test($('agree').textContent)`), await reader.page.told('agree'));
}

// What is to be seen in each step of docs/TOUR.md, by what that page says.
const SEEN = [
  [`all('#marks .joined').map(one => one.textContent.trim()).join() === 'rv_putbyte(70 + 2);'`],
  [`all('#token-text .joined').some(one => one.textContent === '70' && one.title === 'number, tour.c:4')`],
  [`all('#token-text .joined').length === 7`],
  [`all('#form-nodes .joined').map(one => one.textContent.trim()).join('|').includes('binary + tour.c:4|constant int 70')`],
  [`all('#form-nodes .joined').some(one => one.textContent.startsWith('binary + int'))`],
  [`/Add.*Constant\\(70\\).*Constant\\(2\\)/.test($('form-nodes').textContent)`],
  [`$('word-bits').textContent === '00000100011000000000001010010011'`],
  [`/offset 00001024, as the bytes 93 02 60 04/.test($('word-where').textContent)`],
  [`/t0 {3}00000046/.test($('registers').textContent)`, `$('next-instruction').textContent === 'addi x10,x5,2'`],
  [`$('output').textContent === 'H'`, `/pc 00011044/.test($('where').textContent)`],
  [`/^They agree: the abstract machine ends within 11 ticks .* 42, having put the same 1 bytes/.test($('agree').textContent)`],
];

async function tour(reader) {
  const { page } = reader, titles = [...fs.readFileSync(path.join(ROOT, 'docs', 'TOUR.md'), 'utf8').matchAll(/^\*\*(?:\d+\. )?(.*?)\.?\*\*/gm)].map(one => one[1]);
  await page.set('guide-kind', 'tour');
  reader.check('the tour has as many steps as the page of the documents', titles.length === SEEN.length, titles.length);
  for (const [k, seen] of SEEN.entries()) {
    reader.check(`step ${k + 1} has its title`, await reader.until(`$('guide-title').textContent === '${k + 1} of ${titles.length}: ${titles[k]}'`), await page.told('guide-title'));
    for (const one of seen) reader.check(`step ${k + 1} shows what it says`, await reader.until(one), one);
    if (k === 6) await reader.shot('tour');
    if (k < SEEN.length - 1) await page.click('guide-next');
  }
  await page.set('guide-kind', '');
  reader.check('the guide goes', await reader.at(`$('guide-body').hidden`));
}

async function sharing(reader) {
  const { page } = reader;
  await reader.example('words');
  await page.type('int main(void) { int a = 3; a = a + 4; return a; }\n');
  await reader.built();
  await page.click('tab-machine');
  await page.set('count', '7');
  await page.tells('status', '/^After 7 instructions/');
  await page.click('share');
  reader.check('the source is in the address bar', await reader.until(`location.hash.startsWith('#f=')`));
  const shared = await page.run('location.href'), where = await page.told('where');
  reader.check('a page with that address opens', await page.visit(shared));
  reader.check('and has the source', (await reader.at(`$('source').value`)) === 'int main(void) { int a = 3; a = a + 4; return a; }\n');
  reader.check('and the input', (await reader.at(`$('input').value`)) === 'one two  three\\nfour\\n');
  reader.check('and the name', (await reader.at(`$('file').selectedOptions[0].text`)) === 'words.c');
  reader.check('and the tab', await reader.at(`!$('machine').hidden`));
  reader.check('and the step', (await page.told('where')) === where && /after 7 instructions/.test(where), await page.told('where'));
}

export const parts = { course, tour, sharing };
