// The files in the editor, and the address bar's fragment.
import { $ } from './dom.js';
import { draw, indexOf, markAt } from './marks.js';

const LINE = 20;      // pixels of a line
let kept = [['main.c', '']], shown = 0, moved = () => {};

const ended = source => source === '' || source.endsWith('\n') ? source : source + '\n';

function keep() { kept[shown][1] = $('source').value; }

// Each file as [name, text], the main file first; a text that lacks its last newline gets one.
export function files() {
  keep();
  return kept.map(([name, source]) => [name, ended(source)]);
}

export const mainName = () => kept[0][0];
export const shownName = () => kept[shown][0];
export const shownText = () => $('source').value;
export const has = name => kept.some(([other]) => other === name);
export const lineOf = (name, line) => (kept.find(([other]) => other === name)?.[1] ?? '').split('\n')[line - 1] ?? '';

export function setFiles(list) {
  kept = list.map(([name, source]) => [name, source]);
  show(0);
}

function show(index) {
  shown = index;
  $('file').replaceChildren(...kept.map(([name], k) => new Option(name, k, false, k === shown)));
  $('source').value = kept[shown][1];
  $('source').setAttribute('aria-label', `C source, ${kept[shown][0]}`);
  $('remove').disabled = shown === 0;
  redraw();
}

export function redraw() {
  keep();
  draw(kept[shown][0], $('source').value);
  scroll();
  moved();
}

export function choose(index) {
  keep();
  show(index);
}

// Adds a file of this name, or shows the one that has it.
export function add(name) {
  keep();
  const there = kept.findIndex(([other]) => other === name);
  if (there < 0) kept.push([name, '']);
  show(there < 0 ? kept.length - 1 : there);
}

export function remove() {
  if (shown === 0) return;
  kept.splice(shown, 1);
  show(0);
}

// ---- places

export function scroll() {
  for (const id of ['lines', 'marks']) $(id).scrollTop = $('source').scrollTop;
  $('marks').scrollLeft = $('source').scrollLeft;
  moved();
}

// Shows the file of a place, and its line; whether there is such a file.
export function reveal({ file, line }) {
  const index = kept.findIndex(([name]) => name === file);
  if (index < 0) return false;
  if (index !== shown) choose(index);
  const top = LINE * (line - 1), height = $('source').clientHeight;
  if (top < $('source').scrollTop || top + 2 * LINE > $('source').scrollTop + height) $('source').scrollTop = Math.max(0, top - height / 2);
  return true;
}

// Puts the cursor at a place, at the column where it has one.
export function goTo({ file, line, column }) {
  if (!reveal({ file, line })) return;
  const lines = $('source').value.split('\n'), begin = lines.slice(0, line - 1).reduce((sum, one) => sum + one.length + 1, 0);
  const at = begin + (column ? indexOf(lines[line - 1] ?? '', column) : 0);
  $('source').focus();
  $('source').setSelectionRange(at, at);
}

// The line in which the cursor is.
export function cursor() {
  return { file: shownName(), line: $('source').value.slice(0, $('source').selectionStart).split('\n').length };
}

// Replaces what stands from a line and a column up to others.
export function replace({ line, column, end_line: last, end, text }) {
  const lines = $('source').value.split('\n'), start = n => lines.slice(0, n - 1).reduce((sum, one) => sum + one.length + 1, 0);
  const from = start(line) + indexOf(lines[line - 1], column), to = start(last) + indexOf(lines[last - 1], end);
  $('source').setRangeText(text, from, to, 'end');
  keep();
}

// ---- the fragment: the files, the input, the tab, the step

const toBase64 = bytes => btoa(Array.from(bytes, b => String.fromCharCode(b)).join('')).replaceAll('+', '-').replaceAll('/', '_').replaceAll('=', '');
const fromBase64 = word => Uint8Array.from(atob(word.replaceAll('-', '+').replaceAll('_', '/')), c => c.charCodeAt(0));

export function fragment(tab, step) {
  keep();
  return `#f=${toBase64(new TextEncoder().encode(JSON.stringify(kept)))}&i=${encodeURIComponent($('input').value)}&t=${tab}&n=${step}`;
}

// Takes files and input from the address bar; { tab, step } where it has some.
export function fromFragment() {
  const given = new URLSearchParams(location.hash.slice(1));
  try {
    const list = JSON.parse(new TextDecoder().decode(fromBase64(given.get('f'))));
    if (!Array.isArray(list) || list.length === 0 || !list.every(one => one.length === 2 && one.every(part => typeof part === 'string'))) return undefined;
    setFiles(list);
    $('input').value = given.get('i') ?? '';
    return { tab: given.get('t') ?? '', step: Math.max(0, Number(given.get('n')) || 0) };
  } catch {
    return undefined;
  }
}

// ---- what is told under the mouse

function tip(event) {
  const found = markAt(event.clientX, event.clientY);
  $('tip').hidden = !found?.title;
  if (!found?.title) return;
  $('tip').textContent = found.title;
  const box = $('editor').getBoundingClientRect();
  $('tip').style.left = `${Math.max(0, Math.min(event.clientX - box.left, box.width - 260))}px`;
  $('tip').style.top = `${event.clientY - box.top + 18}px`;
}

// `whenMoved` is called when lines have moved on the screen.
export function begin(whenMoved) {
  moved = whenMoved;
  $('source').onscroll = scroll;
  $('source').addEventListener('mousemove', tip);
  $('source').addEventListener('mouseleave', () => { $('tip').hidden = true; });
}
