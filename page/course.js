// Ten lessons: of each the example, what it is about, and three questions with what to look at and the answer. `look`: a tab, a form, a
// line that is marked, a line to run to (`until`), the end (`end`), verifying.
export const lessons = [
  { example: 'hello', about: 'A program is text, then tokens, then a tree, and at last words of a machine.', questions: [
    { ask: 'How many tokens has line 4, behind preprocessing?', look: { tab: 'tokens', line: 4 }, answer: 'Seven: char, text, [, ], =, the string literal, and the semicolon.' },
    { ask: 'How many elements has text, and what is in the last?', look: { tab: 'variables', until: 5 }, answer: 'Seven: six letters with the newline, and the zero that ends each string literal.' },
    { ask: 'Which instruction of line 6 hands a byte to the world?', look: { tab: 'listing', line: 6 }, answer: 'The ecall behind `addi x17,x0,64`: 64 is the number of the call that writes.' } ] },
  { example: 'capitals', about: 'Types, conversions, and input.', questions: [
    { ask: 'Of which type is `\'a\'`, and which value has it?', look: { tab: 'forms', form: 2, line: 8 }, answer: 'It is an int, 97: in C a character constant is no char (6.4.4.4p10).' },
    { ask: 'Why is c an int and no char?', look: { tab: 'forms', form: 2, line: 7 }, answer: 'It must hold every byte, and -1 too, which is the end of the input.' },
    { ask: 'Tick `ask for more`, and run: where does the machine wait?', look: { tab: 'machine', line: 7 }, answer: 'At the ecall of line 7, before the read. What is typed is given to it, and it goes on.' } ] },
  { example: 'words', about: 'Control flow: a machine of two states, a switch in a loop.', questions: [
    { ask: 'What has become of BETWEEN in the typed program?', look: { tab: 'forms', form: 2, line: 8 }, answer: 'The constant 0: an enumerator is an int constant (6.4.4.3).' },
    { ask: 'Which statements belong to the three labels of line 12?', look: { tab: 'forms', form: 1, line: 12 }, answer: 'The assignment of line 13, and break: the labels are nested, one labels the next.' },
    { ask: 'How does the program say its answer?', look: { tab: 'machine', end: true }, answer: 'By its status, 4: it writes nothing.' } ] },
  { example: 'sum', about: 'Functions, and an array as a second result.', questions: [
    { ask: 'How many calls of write_number are active when 4 is written?', look: { tab: 'frames', until: 22 }, answer: 'Three, for 442, 44 and 4: each waits for the next.' },
    { ask: 'Which object does number[0] of read_number mean?', look: { tab: 'variables', until: 14 }, answer: 'The element of main\'s array: an array argument is no copy (6.3.2.1p3).' },
    { ask: 'Why has verifying no bound of the stack here?', look: { tab: 'frames', verify: true }, answer: 'write_number calls itself, and the calls alone say nothing of how often.' } ] },
  { example: 'primes', about: 'A table that is kept, and loops in a loop.', questions: [
    { ask: 'What has composite before the first statement?', look: { tab: 'variables', until: 28 }, answer: 'Zeros: an object with static storage has a value from the start (6.7.9p10).' },
    { ask: 'Why may the loop of line 32 begin at p * p?', look: { tab: 'variables', until: 33 }, answer: 'A smaller multiple of p has a smaller prime factor, and is marked already.' },
    { ask: 'Is every operator shown to be defined?', look: { tab: 'forms', form: 2, verify: true }, answer: 'Yes: all are green, on every input.' } ] },
  { example: 'sort', about: 'An array that a function changes, and cells without a value.', questions: [
    { ask: 'How many cells of item are hatched when sort is called?', look: { tab: 'variables', until: 23 }, answer: '56: eight of 64 have a value.' },
    { ask: 'Why does verifying not show line 9?', look: { tab: 'variables', line: 9, verify: true }, answer: 'It holds all elements for one, and never finds that a loop has given each a value. The places are amber, though the program is right.' },
    { ask: 'Which array is the parameter item?', look: { tab: 'variables', until: 9 }, answer: 'That of main: the picture says which, and sorting moves the cells there.' } ] },
  { example: 'records', about: 'Data in the file: what is there before the first instruction.', questions: [
    { ask: 'How many bytes has name, and what is behind lamp?', look: { tab: 'variables', until: 17 }, answer: '24, three rows of eight: zeros fill each row (6.7.9p21).' },
    { ask: 'Why is pen not written?', look: { tab: 'variables', until: 18 }, answer: 'Its price, 3, is not greater than 100.' },
    { ask: 'How is the address of name[item] computed?', look: { tab: 'listing', line: 19 }, answer: 'The address of name, and eight times item: a shift by 3.' } ] },
  { example: 'list', about: 'A list without pointers.', questions: [
    { ask: 'Which element is first in the end, and why?', look: { tab: 'variables', end: true }, answer: 'Element 3: it is the 1 that came last, put before the other since that is not less.' },
    { ask: 'What does used++ give to return?', look: { tab: 'forms', form: 1, line: 14 }, answer: 'The value before the step: the number of the element just filled (6.5.2.4p2).' },
    { ask: 'Can value[used] be outside of its array?', look: { tab: 'forms', form: 2, line: 12, verify: true }, answer: 'No: the test of line 30 bounds it, and verifying shows it.' } ] },
  { example: 'calculator', about: 'Recursion over a grammar.', questions: [
    { ask: 'How many calls are active at most over this input?', look: { tab: 'frames', until: 26 }, answer: 'Eight, inside the parentheses: main, sum, product, number_or_group, sum, product, number_or_group, pass.' },
    { ask: 'Why is 1+2*3 no 9?', look: { tab: 'forms', form: 1, line: 48 }, answer: 'sum takes whole products: the grammar is in the calls.' },
    { ask: 'At which tick and at which instruction is the digit put?', look: { tab: 'both' }, answer: 'The table of the two traces has both; that each exists, with the same byte, is the theorem.' } ] },
  { example: 'An undefined act', about: 'What has no meaning.', questions: [
    { ask: 'What does the abstract machine do in line 5?', look: { tab: 'both' }, answer: 'It stops: the sum is no int (U1, 6.5p5). A program is defined up to there.' },
    { ask: 'What does the file do?', look: { tab: 'machine', end: true }, answer: 'It happens to end with 0. Nobody promised that: another compiler may do anything else.' },
    { ask: 'How is it mended?', look: { tab: 'forms', form: 2, line: 5, verify: true }, answer: 'Compute with unsigned, or test largest before. Then verifying says defined.' } ] },
];
