// Points 3 and 4: running, and the two traces.

const nextLine = `all('#marks .next').map(one => one.textContent.trim()).join()`;
const nextWord = `all('#listing-lines tr.here .word').map(one => one.textContent).join()`;

async function stepping(reader) {
  const { page } = reader;
  await reader.example('tour');
  await page.click('tab-machine');
  await page.key('F10', 121);
  reader.check('a statement on is the function', await reader.until(`$('count').value === '6'`), await page.told('status'));
  await page.key('F10', 121);
  reader.check('and then its first statement', await reader.until(`$('count').value === '7'`), await page.told('status'));
  reader.check('whose line is marked in the source', (await reader.at(nextLine)) === 'rv_putbyte(70 + 2);', await reader.at(nextLine));
  reader.check('and whose word in the listing', (await reader.at(nextWord)) === '00011024', await reader.at(nextWord));
  await page.key('F10', 121, 8);
  reader.check('an instruction on', await reader.until(`$('count').value === '8'`), await page.told('status'));
  reader.check('the register that changed is marked, and no other', (await reader.at(`all('#registers .changed').map(one => one.textContent).join()`)) === '*t0   00000046', await reader.at(`all('#registers .changed').map(one => one.textContent).join()`));
  await page.key('F9', 120, 8);
  reader.check('an instruction back', await reader.until(`$('count').value === '7'`));
  await page.key('F10', 121);
  reader.check('the next statement is line 5', await reader.until(`$('count').value !== '7'`) && (await reader.at(nextLine)) === 'return 44 - 2;', await reader.at(nextLine));
  reader.check('behind which the byte is put', (await page.told('output')) === 'H');
  await page.key('F9', 120);
  reader.check('a statement back', await reader.until(`$('count').value === '7'`) && (await page.told('output')) === '', await page.told('status'));
  await reader.at(`$('source').focus(); $('source').setSelectionRange(75, 75)`);
  await page.key('F10', 121, 2);
  reader.check('to the line of the cursor', await reader.until(`/0001?1058/.test($('where').textContent)`) && (await reader.at(nextLine)) === 'return 44 - 2;', await page.told('where'));
  await page.key('F8', 119);
  reader.check('a run ends with its status', await page.tells('status', '/After 23 instructions the program ended with status 42/'), await page.told('status'));
  await page.set('count', '5');
  reader.check('an instruction is gone to by its number', await page.tells('status', '/^After 5 instructions/'), await page.told('status'));
  await page.set('break-at', '11040');
  await page.key('F8', 119);
  reader.check('a run stops at a breakpoint', await page.tells('status', '/^After 14 instructions the program goes on, at 00011040/'), await page.told('status'));
  await page.set('from', '0x11008');
  reader.check('memory is shown from an address', await page.tells('memory', '/^00011000/'), await page.told('memory'));
  await page.set('from', 'sp');
  await reader.shot('machine');
}

async function pictures(reader) {
  const { page } = reader;
  const cells = kind => reader.at(`all('#pictures .frame:first-child .cell.${kind}').length`);
  await reader.example('sort');
  await page.click('tab-variables');
  await reader.at(`$('source').focus(); $('source').setSelectionRange(...[20, 20].map(line => $('source').value.split('\\n').slice(0, line - 1).join('\\n').length + 1))`);
  await page.click('to-line');
  reader.check('main has 64 hatched cells and two objects more', await reader.until(`all('#pictures .cell').length === 66`) && await cells('unset') === 66, await page.told('pictures'));
  await reader.at(`$('source').setSelectionRange(...[23, 23].map(line => $('source').value.split('\\n').slice(0, line - 1).join('\\n').length + 1))`);
  await page.click('to-line');
  reader.check('56 of them when sort is called', await reader.until(`all('#pictures .cell.unset').length === 56`), await cells('unset'));
  reader.check('and eight have the input', (await reader.at(`all('#pictures .frame:first-child tr:first-child .cell.set').map(one => String.fromCharCode(one.textContent)).join('')`)) === 'language', await page.told('pictures'));
  await page.key('F10', 121);
  await page.key('F10', 121);
  reader.check('a call has a frame of its own, innermost first', await reader.until(`all('#pictures h3').map(one => one.textContent.trim().split(' ')[0]).join() === 'sort,main'`), await page.told('pictures'));
  reader.check('its parameter has its value', (await reader.at(`all('#pictures .frame:first-child tr').find(one => one.textContent.startsWith('count')).querySelector('.cell').textContent`)) === '8', await page.told('pictures'));
  reader.check('an array parameter is the array of its caller', /item\s*the array item/.test(await page.told('pictures')), await page.told('pictures'));
  await reader.shot('variables');
  const before = await reader.at(`Number($('event').value)`);
  await page.click('event-more');
  reader.check('an event on', await reader.until(`Number($('event').value) === ${before + 1}`));
  await page.click('tab-frames');
  reader.check('the stack has the calls with frames and weights', await reader.until(`all('#calls .call').length === 2`) && /sort frame \d+, weight \d+main frame \d+, weight \d+/.test(await page.told('calls')), await page.told('calls'));
  const weights = await reader.at(`all('#frame-lines tr').map(one => [...one.children].map(cell => cell.textContent))`), sum = weights.filter(one => /sort|main/.test(one[0])).reduce((all, one) => all + Number(one[2].replace(',', '')), 0);
  reader.check('whose sum is held against the stack', (await page.told('weights')).replaceAll(',', '').includes(`sum to ${sum} of 1048576 bytes`), await page.told('weights'));
  const [[, source]] = await reader.at(`(async () => (await import('./examples.js')).examples.find(one => one.name === 'sort').files)()`);
  const frames = reader.program(['frames', 'sort.c'], [['sort.c', source]]).output.split('\n').slice(1, 3).map(line => line.trim().split(/\s+/).slice(0, 3).join(' '));
  reader.check('frames and weights are those of zkc frames', weights.map(one => one.slice(0, 3).join(' ').replaceAll(',', '')).join('|') === frames.join('|'), frames.join('|'));
  reader.check('and the stack pointer says what is in use', /sp is 7FFF[0-9A-F]{4}: \d+ bytes of 1,048,576 are in use/.test(await page.told('depth')), await page.told('depth'));
  await reader.shot('stack');
}

async function typing(reader) {
  const { page } = reader;
  await reader.example('capitals');
  await page.set('input', '');
  await reader.built();
  await reader.tick('ask', true);
  await reader.until(`/After 0 instructions/.test($('status').textContent)`);
  await page.click('run');
  reader.check('a run waits for input', await reader.until(`!$('waits').hidden`) && /waits for input/.test(await page.told('status')), await page.told('status'));
  reader.check('in the line that reads', (await reader.at(nextLine)).startsWith('while ((c = rv_getbyte())'), await reader.at(nextLine));
  await reader.at(`$('typed').value = 'abc'; $('send').click()`);
  reader.check('what is typed is given to it', await page.tells('output', '/^ABC\\n$/') && await reader.until(`!$('waits').hidden`), await page.told('output'));
  await page.click('end-input');
  reader.check('and it ends with its input', await page.tells('status', '/ended with status 0/'), await page.told('status'));
}

async function endless(reader) {
  const { page } = reader;
  await reader.example('A program without an end');
  await page.click('tab-machine');
  await page.click('run');
  reader.check('output is shown while it runs', await reader.until(`$('output').textContent.length > 20 && !$('stop').disabled`), await page.told('output'));
  await page.click('stop');
  reader.check('it is stopped', await page.tells('status', '/^Stopped after [\\d,]+ instructions/'), await page.told('status'));
  const count = Number(await reader.at(`$('count').value`));
  reader.check('where it was, after slices of a million', count > 0 && count % 1e6 === 0, count);
  await page.click('step');
  reader.check('and goes on from there by a step', await reader.until(`$('count').value === '${count + 1}'`), await page.told('status'));
  await page.click('tab-both');
  await reader.until(`/run/.test($('agree').textContent) && !$('stop').disabled`);
  await page.click('stop');
  reader.check('one stop ends the measuring of both traces', await page.tells('status', '/^Stopped/') && await reader.until(`$('stop').disabled`), await page.told('status'));
  await page.click('tab-machine');
  await page.type('int main(void) { return 7; }\n');
  reader.check('and the page lives on', await reader.built(), await page.told('status'));
}

async function traces(reader) {
  const { page } = reader;
  await reader.example('calculator');
  await page.click('tab-both');
  reader.check('the calculator agrees on both sides', await page.tells('agree', '/^They agree: .* within [\\d,]+ ticks .* same status, 0, having put the same 2 bytes/'), await page.told('agree'));
  reader.check('and has written 4', (await page.told('tick-output')) === '4\n' && (await page.told('instruction-output')) === '4\n', await page.told('tick-output'));
  const ticks = await reader.at(`Number($('ticks').max)`), [[, source]] = await reader.at(`(async () => (await import('./examples.js')).examples.find(one => one.name === 'calculator').files)()`);
  const runs = [ticks - 1, ticks].map(max => reader.program(['interp', 'calculator.c', '--max', String(max)], [['calculator.c', source]], '(1+2)*3-20/4\n').status);
  reader.check('the ticks are those with which zkc interp ends', runs.join() === '124,0', `${ticks}: ${runs}`);
  reader.check('the theorem is there with its numbers', /for every input and every n/.test(await page.told('both')) && (await page.told('theorem-stack')) === '1,048,576');
  reader.check('each byte has its tick and its instruction', await reader.until(`all('#puts tr').length === 2`), await page.told('puts'));
  await reader.at(`$('puts').querySelector('button').click()`);
  reader.check('both sides are shown where the first byte is written', await reader.until(`$('tick-output').textContent === '4' && $('instruction-output').textContent === '4'`));
  reader.check('with the line of the machine', /in line 65 of calculator\.c/.test(await page.told('instruction-state')), await page.told('instruction-state'));
  await page.click('event-behind');
  reader.check('both go to the next event', await reader.until(`$('tick-output').textContent === '4\\n' && $('instruction-output').textContent === '4\\n'`));
  await page.click('event-before');
  await reader.until(`$('tick-output').textContent === '4'`);
  await page.click('ticks-less');
  reader.check('a tick before it is not', await reader.until(`$('tick-output').textContent === ''`), await page.told('tick-output'));
  reader.check('in the line that puts it', /in line 65 of calculator\.c/.test(await page.told('tick-state')), await page.told('tick-state'));
  reader.check('which is marked', (await reader.at(`all('#lines .joined').map(one => one.textContent).join()`)) === '65');
  await reader.shot('both');
  await reader.example('An undefined act');
  reader.check('an undefined act is told', await page.tells('agree', '/an undefined act, U1, in line 5 of main.c/'), await page.told('agree'));
}

export const parts = { stepping, pictures, typing, endless, traces };
