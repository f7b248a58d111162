// The tabs: by mouse, and by the keys that a tab list has.
import { $ } from './dom.js';

const tabs = () => [...document.querySelectorAll('[role=tab]')];
let whenShown = () => {};

function show(tab) {
  for (const one of tabs()) {
    const on = one === tab;
    one.setAttribute('aria-selected', String(on));
    one.tabIndex = on ? 0 : -1;
    $(one.getAttribute('aria-controls')).hidden = !on;
  }
  whenShown(tab);
}

// The name of the panel that is shown.
export const current = () => document.querySelector('[role=tab][aria-selected=true]').getAttribute('aria-controls');

// Shows the panel of this name, where there is one.
export function choose(name) {
  const found = tabs().find(one => one.getAttribute('aria-controls') === name);
  if (found && name !== current()) show(found);
}

function move(event) {
  const all = tabs(), here = all.indexOf(event.target);
  const to = { ArrowRight: here + 1, ArrowLeft: here - 1, Home: 0, End: all.length - 1 }[event.key];
  if (to === undefined) return;
  event.preventDefault();
  const next = all[(to + all.length) % all.length];
  show(next);
  next.focus();
}

// `shown` is called with each tab that is chosen.
export function begin(shown) {
  for (const tab of tabs()) {
    tab.onclick = () => show(tab);
    tab.onkeydown = move;
  }
  show(tabs()[0]);
  whenShown = shown;
}
