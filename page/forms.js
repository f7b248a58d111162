// The forms that the compiler makes of a program between its phases: tokens line by line, and trees that fold.
import { $, around, button, element, text } from './dom.js';
import { ask } from './asking.js';
import { program, session } from './session.js';
import * as joined from './joined.js';

export const FORMS = { tokens: 0, tree: 1, typed: 2, tac: 3, flat: 4, items: 5 };
const SHOWN = 4000;      // nodes; more are the program's to show
const OPEN = 3;          // levels that begin open
const PLAIN = new Set(['type', 'op', 'name', 'specifier', 'function', 'value', 'number', 'at', 'code', 'text', 'static']);
const HIDDEN = new Set(['node', 'parts', 'file', 'line']);

let turn = -1, form = '', left = 0, trees = new Map();

// A form of the program that was built last, or the message for which there is none.
export async function treeOf(number) {
  const now = session.turn, kept = trees.get(number);
  if (kept?.turn === now) return kept.got;
  const answer = await ask('form', ...program(), number);
  if (now !== session.turn || answer.stopped) return undefined;
  const got = answer.failed ? { message: 'The engine has no stack for it.' }
    : answer.answer.status !== 0 ? { message: answer.answer.message.trim() } : { tree: JSON.parse(text(answer.answer.output)) };
  trees.set(number, { turn: now, got });
  return got;
}

// ---- tokens

function tokenButton(token) {
  const made = button(token.text, null, { className: `token ${token.node}`, title: `${token.node}, ${token.file}:${token.line}`, tabIndex: -1 });
  made.dataset.says = `${token.node} ${token.text}, line ${token.line} of ${token.file}`;
  return joined.join('token-text', made, token);
}

// Shows the tokens behind preprocessing, a line for each line of a file.
export async function showTokens() {
  joined.begin('token-text');
  const got = await treeOf(FORMS.tokens);
  if (!got) return;
  const rows = [];
  let before, list;
  for (const token of (got.tree?.parts ?? []).slice(0, SHOWN)) {
    if (token.line !== before?.line || token.file !== before?.file) rows.push(around('div', [list = document.createElement('span')], { className: 'line' }));
    if (list.childNodes.length > 0) list.append(' ');
    list.append(tokenButton(token));
    before = token;
  }
  $('token-text').replaceChildren(...rows);
  const first = $('token-text').querySelector('button');
  if (first) first.tabIndex = 0;
  const all = got.tree?.parts.length ?? 0;
  $('token-says').textContent = got.message ?? (all > SHOWN ? `The first ${SHOWN} of ${all} tokens.` : `${all} tokens`);
}

// ---- trees

const attribute = ([key, value]) => PLAIN.has(key) ? `${value}` : `${key}=${value}`;
const words = node => Object.entries(node).filter(([key]) => !HIDDEN.has(key)).map(attribute).join(' ');
const placeIn = (node, around) => node.file !== undefined ? { file: node.file, line: node.line } : around;

function saidOf(node) {
  const place = node.file === undefined ? [] : [element('span', `${node.file}:${node.line}`, { className: 'place' })];
  return [element('b', node.node), ` ${words(node)} `, ...place];
}

// A node without a place is joined by that of the node around it.
function item(node, depth, inherited) {
  left -= 1;
  const parts = node.parts ?? [], place = placeIn(node, inherited);
  if (parts.length === 0) return around('li', [joined.join('form-nodes', around('span', saidOf(node), { className: 'node', tabIndex: -1 }), place)]);
  const fold = document.createElement('details'), list = document.createElement('ul');
  fold.open = depth < OPEN;
  for (const part of parts) {
    if (left <= 0) break;
    list.append(item(part, depth + 1, place));
  }
  fold.append(joined.join('form-nodes', around('summary', saidOf(node), { className: 'node', tabIndex: -1 }), place), list);
  return around('li', [fold]);
}

function count(node) {
  let all = 0;
  for (const rest = [node]; rest.length > 0;) {
    const one = rest.pop();
    all += 1;
    rest.push(...one.parts ?? []);
  }
  return all;
}

// ---- the places of three-address code and of items

// An instruction without a place is of the statement that began last before it.
function placeCode(tree) {
  for (const one of tree.parts) {
    let place;
    for (const part of one.node === 'function' ? one.parts : []) {
      place = placeIn(part, place);
      Object.assign(part, place);
    }
  }
}

// The tree of a form, in which each instruction has a place where one is known: none has in flat code, whose order is another.
async function placed(number) {
  const got = await treeOf(number);
  if (!got?.tree || number < FORMS.tac || number === FORMS.flat) return got;
  const tree = structuredClone(got.tree);
  placeCode(tree);
  return { tree };
}

// Shows the form that is chosen, where it is not shown yet.
export async function show() {
  const wanted = $('form').value;
  if (turn === session.turn && form === wanted) return joined.revealIn('form-nodes');
  const now = session.turn, got = await placed(Number(wanted));
  if (!got || now !== session.turn) return;
  [turn, form] = [now, wanted];
  joined.begin('form-nodes');
  if (got.message) {
    $('form-nodes').replaceChildren();
    $('form-rest').textContent = got.message;
    return;
  }
  const all = count(got.tree);
  left = SHOWN;
  $('form-nodes').replaceChildren(item(got.tree, 0));
  $('form-nodes').querySelector('.node').tabIndex = 0;
  $('form-rest').textContent = all > SHOWN ? `${all - SHOWN} more nodes: zkc show shows all.` : `${all} nodes`;
  joined.revealIn('form-nodes');
}

export function begin() {
  $('form').onchange = show;
  $('form-open').onclick = () => { for (const one of $('form-nodes').querySelectorAll('details')) one.open = true; };
  $('form-close').onclick = () => { for (const one of $('form-nodes').querySelectorAll('details details')) one.open = false; };
  joined.arrows('token-text', '.token', one => { $('token-says').textContent = one.dataset.says; });
  joined.arrows('form-nodes', '.node');
}
