// What each part of the page uses.
export const $ = id => document.getElementById(id);
export const say = line => { $('status').textContent = line; };
export const hex = (n, digits = 8) => (n >>> 0).toString(16).toUpperCase().padStart(digits, '0');
export const text = bytes => new TextDecoder().decode(bytes);
export const number = n => n.toLocaleString('en');

const SHOWN = 65536;      // bytes of an output

export const beginning = bytes => bytes.length <= SHOWN ? text(bytes) : `${text(bytes.slice(0, SHOWN))}\n… and ${bytes.length - SHOWN} more bytes`;

export function element(tag, words, more = {}) {
  const made = document.createElement(tag);
  made.textContent = words;
  return Object.assign(made, more);
}

// An element of other elements.
export function around(tag, parts, more = {}) {
  const made = document.createElement(tag);
  made.append(...parts);
  return Object.assign(made, more);
}

export const button = (words, done, more = {}) => element('button', words, { type: 'button', onclick: done, ...more });

// A row of a table: each cell a text or an element.
export function row(cells) {
  const made = document.createElement('tr');
  made.append(...cells.map(cell => { const td = document.createElement('td'); td.append(cell); return td; }));
  return made;
}

export const byteName = byte => byte === null ? 'the end of the input' : byte > 32 && byte < 127 ? String.fromCharCode(byte) : byte === 10 ? '\\n' : `\\x${byte.toString(16).padStart(2, '0')}`;
