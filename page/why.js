// What the other modules say of a program: why it is refused, its warnings, and which operators are shown to be defined on every input.
import { $, text } from './dom.js';
import { ask, askWhy } from './asking.js';
import { STACK, program, session } from './session.js';
import * as findings from './findings.js';
import { lineOf } from './sources.js';

const CHECKED = { binary: ['+', '-', '*', '/', '%', '<<', '>>'], compound: ['+', '-', '*', '/', '%', '<<', '>>'], unary: ['-'], prefix: ['++', '--'], postfix: ['++', '--'] };
const key = ({ file, line }) => `${file}:${line}`;

// What a call of theirs answers, as objects, with its status; nothing where it is old or not to be had.
async function told(what, ...more) {
  const turn = session.turn, got = await askWhy(what, ...program(), ...more);
  if (turn !== session.turn || got.stopped) return undefined;
  if (got.failed) { $('verdict').textContent = got.absent ? `What explains could not be loaded: ${got.failed}` : 'The engine has no stack for it.'; return undefined; }
  if (got.answer.status === 1) return undefined;
  return { status: got.answer.status, list: findings.parse(text(got.answer.output)) };
}

// The fault with its column, hints and further faults, in place of the one line that the build told.
export async function explain(message) {
  const line = findings.ofLine(message);
  findings.set('fault', line ? [line] : []);
  if (!line) return;
  const got = await told('explain', STACK);
  if (got?.list.length > 0) findings.set('fault', got.list);
}

export async function warn() {
  if (!$('warnings').checked) return findings.set('warning', []);
  const got = await told('warn', STACK);
  if (got) findings.set('warning', got.list);
}

// ---- verifying

// The lines on which an operator stands that verifying looks at, by the typed program: of each its operators.
function operators(node, found = new Map()) {
  for (const rest = [node]; rest.length > 0;) {
    const one = rest.pop();
    rest.push(...one.parts ?? []);
    const word = one.node === 'element' ? '[' : CHECKED[one.node]?.includes(one.op) ? one.op + (one.node === 'compound' ? '=' : '') : undefined;
    if (word === undefined || one.file === undefined) continue;
    const at = key(one);
    found.set(at, (found.get(at) ?? { file: one.file, line: one.line, words: new Set() }));
    found.get(at).words.add(word);
  }
  return found;
}

const TOKEN = /\/\/.*|\/\*.*?(?:\*\/|$)|"(?:\\.|[^"\\])*"|'(?:\\.|[^'\\])*'|<<=|>>=|\+\+|--|<<|>>|[-+*/%&|^!=<>]=|&&|\|\||->|\w+|[^\s\w]/g;
const bytes = words => new TextEncoder().encode(words).length;

// Where these operators stand in a line, outside of comments and literals.
function spansOf({ file, line, words }) {
  const source = lineOf(file, line);
  return [...source.matchAll(TOKEN)].filter(one => words.has(one[0])).map(one => {
    const column = bytes(source.slice(0, one.index)) + 1;
    return { file, line, column, end: column + one[0].length, kind: 'shown', text: `'${one[0]}': no run does anything undefined in this line` };
  });
}

// A run that does something undefined does so in a line of one of the places: the operators of all other lines are shown.
function shownBy(places, typed) {
  const open = new Set(places.map(key));
  return [...operators(typed).values()].filter(one => !open.has(key(one))).flatMap(spansOf);
}

function verdict(status, last, places) {
  const bound = last?.stack_most === null || last?.stack_most === undefined ? last?.text ?? '' : `the stack takes at most ${last.stack_most} of ${last.stack} bytes`;
  if (status === 0) return `Verified: defined on every input; ${bound}.`;
  if (places.some(one => one.code === 'not-followed')) return `Not followed: ${bound}.`;
  return last?.defined ? `Defined on every input, but ${bound}.` : `Not shown: ${places.length} places may do something undefined; ${bound}.`;
}

// Amber are the places that were not shown, green the operators of all other lines, where the analysis followed the program to its end.
export async function verify() {
  findings.set('verify', []);
  findings.setShown([]);
  $('verdict').textContent = '';
  if (!$('verify').checked) return;
  $('verdict').textContent = 'Verifying …';
  const turn = session.turn, got = await told('verify', STACK), form = await ask('form', ...program(), 2);
  if (turn !== session.turn) return;
  $('verdict').textContent = '';
  if (!got) return;
  const last = got.list.find(one => one.code === 'verdict'), places = got.list.filter(one => one.code !== 'verdict');
  const followed = last !== undefined && !places.some(one => one.code === 'not-followed' || one.line === 0);
  session.bound = last?.stack_most ?? undefined;
  findings.set('verify', places);
  if (followed && form.answer?.status === 0) findings.setShown(shownBy(places, JSON.parse(text(form.answer.output))));
  $('verdict').textContent = verdict(got.status, last, places);
}

// ---- the undefined act of a run

// The act that `zk_interpret` told of a run over this input: at its operator, with the values that make it undefined and the calls that are active there.
export async function undefinedAct(message, given, ticks) {
  const found = /^(.*):(\d+): undefined (U\d)\n$/.exec(message);
  if (!found) return;
  const [, file, line, code] = found, text = 'undefined: what the file does from here on is promised to nobody';
  findings.set('run', [{ file, line: Number(line), column: null, end: null, code, text, token: '', notes: [] }]);
  const [act] = (await told('explainRun', given, ticks))?.list ?? [];
  if (act) findings.set('run', [act]);
}
