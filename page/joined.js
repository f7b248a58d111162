// One place in every form: what is selected in one of them is marked in the others and in the source, by the line that each carries.
import { $ } from './dom.js';
import { setJoined } from './marks.js';
import { reveal } from './sources.js';

const panels = new Map();      // of each panel: of each place, its elements
const placeOf = new WeakMap();
let marked;

const key = ({ file, line }) => `${file}:${line}`;

// Begins a panel anew: what was in it is forgotten.
export function begin(panel) { panels.set(panel, new Map()); }

// Says that an element of a panel is of a place.
export function join(panel, element, place) {
  if (place === undefined) return element;
  const found = panels.get(panel), at = key(place);
  if (!found.has(at)) found.set(at, []);
  found.get(at).push(element);
  placeOf.set(element, place);
  if (marked && key(marked) === at) element.classList.add('joined');
  return element;
}

const elementsAt = place => place === undefined ? [] : [...panels.values()].flatMap(found => found.get(key(place)) ?? []);

// Scrolls a list so that an element is seen; it is opened where it lies in a node that is folded.
function show(element) {
  for (let fold = element.closest('details'); fold; fold = fold.parentElement.closest('details')) if (fold !== element.parentElement) fold.open = true;
  const list = element.closest('.scroll, .nodes, .tokens'), box = list?.getBoundingClientRect(), own = element.getBoundingClientRect();
  if (list && (own.top < box.top || own.bottom > box.bottom)) list.scrollTop += own.top - box.top - box.height / 3;
}

// Scrolls a panel to what is marked in it.
export function revealIn(panel) {
  const first = marked && panels.get(panel)?.get(key(marked))?.[0];
  if (first) show(first);
}

// Marks a place, which was selected in the panel `by`, or in the source.
export function mark(place, by) {
  for (const one of elementsAt(marked)) one.classList.remove('joined');
  marked = place;
  for (const one of elementsAt(place)) one.classList.add('joined');
  setJoined(place);
  if (place === undefined) return;
  if (by !== 'source') reveal(place);
  for (const panel of panels.keys()) if (panel !== by && !$(panel)?.closest('[role=tabpanel]').hidden) revealIn(panel);
}

export const markedPlace = () => marked;

// ---- keys

const isSeen = element => element.getClientRects().length > 0;

function fold(element, key) {
  const details = element.tagName === 'SUMMARY' ? element.parentElement : undefined;
  if (details && key === 'ArrowRight' && !details.open) { details.open = true; return true; }
  if (details && key === 'ArrowLeft' && details.open) { details.open = false; return true; }
  return false;
}

function move(event, list, selector) {
  const here = event.target.closest(selector);
  if (!here || event.ctrlKey || event.altKey || event.metaKey) return;
  const all = [...list.querySelectorAll(selector)].filter(isSeen), at = all.indexOf(here);
  const to = { ArrowDown: at + 1, ArrowRight: at + 1, ArrowUp: at - 1, ArrowLeft: at - 1, Home: 0, End: all.length - 1, PageDown: at + 16, PageUp: at - 16 }[event.key];
  if (to === undefined) return;
  event.preventDefault();
  if (!fold(here, event.key)) all[Math.max(0, Math.min(all.length - 1, to))].focus();
}

// Makes the arrow keys go among the items of a list, of which one is reached by the tab key; an item that gets the focus is selected.
export function arrows(panel, selector, chosen = () => {}) {
  const list = $(panel);
  list.addEventListener('keydown', event => move(event, list, selector));
  list.addEventListener('focusin', event => {
    const item = event.target.closest(selector);
    if (!item) return;
    for (const one of list.querySelectorAll('[tabindex="0"]')) if (one !== item) one.tabIndex = -1;
    item.tabIndex = 0;
    mark(placeOf.get(item) ?? placeOf.get(item.closest('tr')), panel);
    chosen(item);
  });
  list.addEventListener('click', event => { const item = event.target.closest(selector); if (item && document.activeElement !== item) item.focus(); });
}
