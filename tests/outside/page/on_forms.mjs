// Points 1 and 2: the forms of a program, and one place in all of them.

// The forms as the page's module gives them, against those that the program prints.
async function sameBytes(reader) {
  const files = await reader.at(`(async () => (await import('./examples.js')).examples.filter(one => one.name !== 'backwards').map(one => [one.name, one.files]))()`);
  for (const [name, given] of files) {
    const main = given[0][0], calls = ['tokens', 'tree', 'typed', 'tac', 'flat', 'items'].map((form, k) => [form, `zk.form(files, main, ${k})`, ['show', form, main, '--json']]);
    calls.push(['list', 'zk.list(files, main)', ['list', main]]);
    for (const [form, call, words] of calls) {
      const found = await reader.at(`(async () => {
        const { open, compile } = await import('./zikorape.js');
        globalThis.own ??= open(await WebAssembly.compile(await (await fetch('zikorape.wasm')).arrayBuffer()));
        const zk = globalThis.own, files = ${JSON.stringify(given)}, main = '${main}';
        return String.fromCharCode(...[]) + [...${call}.output].map(b => String.fromCharCode(b)).join('');
      })()`);
      const wanted = reader.program(words, given);
      reader.check(`${name}: ${form} has the bytes of the program`, found === wanted.output && wanted.output.length > 10, `${found?.slice(0, 100)} / ${wanted.output.slice(0, 100)}`);
    }
  }
}

async function shown(reader) {
  const { page } = reader;
  await reader.example('tour');
  await page.click('tab-tokens');
  reader.check('tokens are shown line by line', (await reader.at(`all('#token-text .line').map(one => one.textContent).join('|')`)) === 'void rv_putbyte ( int c ) ;|int main ( void ) {|rv_putbyte ( 70 + 2 ) ;|return 44 - 2 ;|}', await page.told('token-text'));
  reader.check('each with its kind and line', (await reader.at(`all('#token-text .token').find(one => one.textContent === '70').title`)) === 'number, tour.c:4');
  await page.click('tab-forms');
  for (const [form, root] of [['2', 'program'], ['3', 'program'], ['4', 'program'], ['5', 'program'], ['0', 'tokens'], ['1', 'unit']]) {
    await page.set('form', form);
    reader.check(`form ${form} begins with ${root}`, await reader.until(`$('form-nodes').querySelector('b')?.textContent === '${root}'`));
  }
  reader.check('a node of the typed program has its type', await page.set('form', '2') === undefined && await reader.until(`all('#form-nodes .node').some(one => one.textContent === 'binary + int tour.c:4')`), await page.told('form-nodes'));
  await page.click('form-open');
  reader.check('all nodes open', await reader.at(`all('#form-nodes details').every(one => one.open)`));
  await page.click('form-close');
  reader.check('and close, but the root', await reader.at(`all('#form-nodes details details').every(one => !one.open)`));
  await reader.shot('forms');
}

const joinedWords = `all('#listing-lines tr.joined .word').map(one => one.textContent).join(' ')`;
// The words between the first of line 4 and the first of line 5, by docs/TOUR.md.
const LINE_4 = Array.from({ length: 13 }, (_, k) => (0x11024 + 4 * k).toString(16).toUpperCase().padStart(8, '0')).join(' ');

async function joined(reader) {
  const { page } = reader;
  await reader.example('tour');
  await page.click('tab-forms');
  await page.set('form', '1');
  await reader.until(`$('form-nodes').querySelector('b')?.textContent === 'unit'`);
  await page.click('tab-tokens');
  await reader.at(`all('.token').find(one => one.textContent === '70').click()`);
  reader.check('a token marks its line in the source', (await reader.at(`all('#marks .joined').map(one => one.textContent.trim()).join()`)) === 'rv_putbyte(70 + 2);');
  reader.check('in the listing', (await reader.at(joinedWords)) === LINE_4, await reader.at(joinedWords));
  reader.check('in the tree', (await reader.at(`all('#form-nodes .joined').map(one => one.textContent.split(' ')[0]).join(' ')`)) === 'expression call binary constant constant', await reader.at(`all('#form-nodes .joined').map(one => one.textContent).join('|')`));
  reader.check('and among the tokens', (await reader.at(`all('#token-text .joined').map(one => one.textContent).join(' ')`)) === 'rv_putbyte ( 70 + 2 ) ;');
  for (let k = 0; k < 4; k++) await page.key('ArrowRight', 39);
  reader.check('arrow keys go on to the next line', (await reader.at(`all('#marks .joined').map(one => one.textContent.trim()).join()`)) === 'return 44 - 2;' || await reader.at(`document.activeElement.textContent`) === ';', await reader.at(`document.activeElement.textContent`));
  for (const [form, code] of [['3', /Call|Put|Compute/], ['5', /addi x17,x0,64/]]) {
    await page.click('tab-forms');
    await page.set('form', form);
    await reader.until(`/instruction|item/.test($('form-nodes').textContent)`);
    await reader.at(`$('source').focus(); $('source').setSelectionRange(50, 50); $('source').dispatchEvent(new Event('click'))`);
    const marked = await reader.at(`all('#form-nodes .joined').map(one => one.textContent).join('|')`);
    reader.check(`the cursor's line is marked in form ${form}`, code.test(marked), marked);
  }
  await reader.at(`$('source').setSelectionRange(75, 75); $('source').dispatchEvent(new Event('click'))`);
  reader.check('the line of the cursor is marked in the listing', /^00011058 /.test(await reader.at(joinedWords)), await reader.at(joinedWords));
}

async function listing(reader) {
  const { page } = reader;
  await reader.example('tour');
  await page.click('tab-listing');
  await reader.at(`all('#listing-lines .word')[9].focus()`);
  reader.check('a word is told by its place in the file', /offset 00001024, as the bytes 93 02 60 04/.test(await page.told('word-where')), await page.told('word-where'));
  reader.check('and by its bits', (await page.told('word-bits')) === '000001000110' + '00000' + '000' + '00101' + '0010011', await page.told('word-bits'));
  reader.check('its statement is told', /tour\.c:4/.test(await page.told('word-where')));
  reader.check('what x5 is', /x5 is t0: a temporary/.test(await page.told('word-says')), await page.told('word-says'));
  await page.key('ArrowDown', 40);
  reader.check('an arrow goes to the next word', /^00011028:/.test(await page.told('word-name')), await page.told('word-name'));
  reader.check('functions and labels have lines of their own', (await reader.at(`all('#listing-lines tr.label').map(one => one.textContent).join(' ')`)) === 'main: .L11058:', await reader.at(`all('#listing-lines tr.label').map(one => one.textContent).join(' ')`));
  reader.check('a call has the name of what it calls', /jalr x1,16\(x1\) {2}# main/.test(await page.told('listing-lines')));
  reader.check('a branch has its label', /beq x10,x0,\.L11058/.test(await page.told('listing-lines')));
  await reader.tick('abi', true);
  reader.check('registers have their names where wanted', /addi t0,zero,70/.test(await page.told('listing-lines')));
  await reader.tick('abi', false);
  await reader.example('list');
  reader.check('static objects are named', / {2}# value/.test(await page.told('listing-lines')) && / {2}# used/.test(await page.told('listing-lines')));
  await reader.at(`all('#listing-lines .word').find(one => /^lui|auipc x\\d+,0x1$/.test(one.closest('tr').children[2].textContent)).focus()`);
  reader.check('what 0x.. is', /are the upper 20 bits/.test(await page.told('word-says')), await page.told('word-says'));
  await reader.shot('listing');
}

export const parts = { sameBytes, shown, joined, listing };
