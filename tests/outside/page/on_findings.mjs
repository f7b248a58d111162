// Point 5: faults explained, warnings, undefined acts, and what verifying shows.

const marked = kind => `all('#marks .mark.${kind}').map(one => one.textContent).join(' ')`;

async function faults(reader) {
  const { page } = reader;
  await page.type('int count;\nint main(void) {\n    int first = 1;\n    return cuont;\n}\n');
  reader.check('a fault is shown', await reader.until(`!$('fault').hidden`));
  reader.check('and in the status', await page.tells('status', '/:4: 528 undeclared name/'), await page.told('status'));
  reader.check('explained, with its token and a hint', await page.tells('fault', "/^528 undeclared name 'cuont'\\ndid you mean `count`/"), await page.told('fault'));
  const below = await reader.at(`$('fault').getBoundingClientRect().top - $('editor').getBoundingClientRect().top`);
  reader.check('under its line, the fourth', Math.abs(below - 86) < 4, below);
  reader.check('its number is marked', (await reader.at(`all('#lines .faulty').map(one => one.textContent).join()`)) === '4');
  reader.check('and its token', (await reader.at(marked('fault'))) === 'cuont', await reader.at(marked('fault')));
  await page.click('to-fault');
  reader.check('the cursor goes to it', await reader.at(`document.activeElement.id === 'source' && $('source').selectionStart === 58`), await reader.at(`$('source').selectionStart`));
  await reader.shot('fault');
  await reader.at(`all('#findings button').find(one => /^Change to count/.test(one.textContent)).click()`);
  reader.check('its change mends it', await reader.built() && await reader.at(`$('source').value.includes('return count;') && $('fault').hidden`), await page.told('status'));
  await page.type('int f(void) { return a; }\nint main(void) {\n    return b + f();\n}\n');
  reader.check('further faults are told, each at its place', await reader.until(`all('#findings > .fault').length === 2`) && (await reader.at(marked('fault'))) === 'a b', await page.told('findings'));
  await page.type('int main(void) {\n    int x = (3 + 4;\n    return x;\n}\n');
  reader.check('a syntax error says what was expected', await page.tells('findings', '/expected `\\)` before `;`/'), await page.told('findings'));
}

async function warnings(reader) {
  const { page } = reader;
  await page.type('int main(void) {\n    int unused = 3;\n    return 0;\n}\n');
  await reader.built();
  reader.check('warnings are not told unasked', (await page.told('findings')) === '');
  await reader.tick('warnings', true);
  reader.check('and are, at their place, where they are wanted', await page.tells('findings', "/:2:9 unused-variable object is never used 'unused'/"), await page.told('findings'));
  reader.check('the name is marked', (await reader.at(marked('warning'))) === 'unused', await reader.at(marked('warning')));
  await reader.tick('warnings', false);
  reader.check('and they go', await reader.until(`$('findings').textContent === ''`));
}

// On the input `b`.
const TWICE = 'int rv_getbyte(void);\nstatic int at(int a[3], int i) {\n    return a[0] + a[i];\n}\nint main(void) {\n    int a[3] = { 1, 2, 3 };\n    return at(a, rv_getbyte());\n}\n';

async function acts(reader) {
  const { page } = reader;
  await reader.example('An undefined act');
  await page.click('run');
  reader.check('a run whose meaning is undefined says so', await page.tells('status', '/The file ended, but its meaning is undefined: main.c:5: undefined U1/'), await page.told('status'));
  reader.check('at its operator', await reader.until(`${marked('run')} === '+'`), await reader.at(marked('run')));
  reader.check('with values', await page.tells('fault', '/^U1 .*2147483647/'), await page.told('fault'));
  await reader.shot('undefined');
  await page.set('input', 'b');
  await page.type(TWICE);
  reader.check('another program is built', await reader.until(`$('fault').hidden && !$('run').disabled && /After 0 instructions/.test($('status').textContent)`), await page.told('status'));
  await page.click('run');
  reader.check('of two subscripts of a line the one that is outside', await page.tells('fault', '/^U5 .*index 98 of 3 elements of `a`/'), await page.told('fault'));
  reader.check('and the calls that are active there', await reader.until(`/in \`at\`/.test($('findings').textContent) && /main.c:7: in \`main\`/.test($('findings').textContent)`), await page.told('findings'));
  await page.set('input', '');
  await reader.example('hello');
  await page.click('run');
  reader.check('and a run that is defined does not', await page.tells('status', '/ended with status 0/') && await reader.at(`$('fault').hidden`), await page.told('status'));
}

// The bound of the stack that `zkc verify` tells.
const bound = (reader, source) => /stack at most (\d+) of/.exec(reader.program(['verify', 'main.c'], [['main.c', source]]).output)?.[1];

const HALF = 'int rv_getbyte(void);\nint main(void) {\n    int c = rv_getbyte();\n    if (c < 0) return 1;\n    int d = c * 2;\n    if (d == 7) return 2;\n    return 1000 / (c - 65);\n}\n';
const WHOLE = 'int rv_getbyte(void);\nint main(void) {\n    int c = rv_getbyte();\n    if (c < 0) return 1;\n    return 1000 / (c + 1);\n}\n';

async function verifying(reader) {
  const { page } = reader;
  await reader.example('hello');
  await page.type(HALF);
  await reader.built();
  await reader.tick('verify', true);
  reader.check('the verdict is told', await page.tells('verdict', `/^Not shown: 1 places may do something undefined; the stack takes at most ${bound(reader, HALF)} of 1048576 bytes/`), await page.told('verdict'));
  reader.check('amber is the operator that was not shown', await reader.until(`${marked('verify')} === '/'`), await reader.at(marked('verify')));
  reader.check('green are those of lines without one, and no other', (await reader.at(marked('shown'))) === '*', await reader.at(marked('shown')));
  reader.check('the interval is told', /-65 to 190/.test(await page.told('findings')), await page.told('findings'));
  const spot = await reader.at(`(() => { const box = document.querySelector('#marks .mark.verify').getBoundingClientRect(); return [box.left + 3, box.top + 3]; })()`);
  await page.send('Input.dispatchMouseEvent', { type: 'mouseMoved', x: spot[0], y: spot[1] });
  reader.check('also under the mouse', await reader.until(`!$('tip').hidden && /-65 to 190/.test($('tip').textContent)`), await page.told('tip'));
  await reader.shot('verify');
  await page.type(WHOLE);
  reader.check('a program that is defined is told as such', await page.tells('verdict', `/^Verified: defined on every input; the stack takes at most ${bound(reader, WHOLE)} of 1048576 bytes/`), await page.told('verdict'));
  reader.check('and all its operators are green', (await reader.at(marked('shown'))) === '/ +' && (await reader.at(marked('verify'))) === '', await reader.at(marked('shown')));
  await reader.example('calculator');
  reader.check('what was not followed has no green', await page.tells('verdict', '/^Not followed/') && (await reader.at(marked('shown'))) === '', await page.told('verdict'));
  await reader.tick('verify', false);
}

export const parts = { faults, warnings, acts, verifying };
