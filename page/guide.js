// The course and the tour: a text beside the program, and what to look at.
import { $, around, button, element } from './dom.js';
import { session } from './session.js';
import { lessons } from './course.js';
import { steps as tour } from './tour.js';
import * as forms from './forms.js';
import * as joined from './joined.js';
import * as listing from './listing.js';
import * as running from './running.js';
import * as sources from './sources.js';
import * as tabs from './tabs.js';
import { startsOf } from './table.js';

// The address of which a step of the tour speaks.
const addressIn = step => Number(/0x1[0-9a-f]{4}\b/.exec(step.parts.map(part => part.text ?? '').join(' '))[0]);

// What is looked at in each step of docs/TOUR.md; `behind`: the machine has executed the word at this address.
const WALK = [
  { tab: 'tokens', line: 4 }, { tab: 'tokens', line: 4 }, { tab: 'tokens', line: 4 }, { tab: 'forms', form: 1, line: 4 }, { tab: 'forms', form: 2, line: 4 },
  { tab: 'forms', form: 3, line: 4 }, { tab: 'listing', word: addressIn(tour[7]) }, { tab: 'listing', word: addressIn(tour[7]) }, { tab: 'machine', behind: addressIn(tour[8]) },
  { tab: 'machine', behind: addressIn(tour[9]) }, { tab: 'both' },
];
let at = 0, take = async () => {};

// ---- what to look at

const place = line => ({ file: sources.mainName(), line });

// Runs to where a statement of this line is next.
async function runTo(line) {
  await running.go(0);
  await running.runTo(startsOf(session.table, place(line)));
}

// Runs to a word, and executes it.
async function runBehind(address) {
  await running.go(0);
  await running.runTo([address]);
  await running.go(session.seen.steps + 1);
}

async function look({ tab, form, line, word, behind, until, end, verify }) {
  if (verify && !$('verify').checked) { $('verify').checked = true; $('verify').onchange(); }
  if (form !== undefined) $('form').value = String(form);
  tabs.choose(tab);
  if (tab === 'forms') await forms.show();
  if (behind !== undefined) await runBehind(behind);
  if (until !== undefined) await runTo(until);
  if (end) await running.runTo([]);
  if (line !== undefined) joined.mark(place(line), 'guide');
  if (word !== undefined) listing.select(word);
}

// ---- the texts

// Words with `code` and *emphasis*.
function words(text) {
  return text.split(/(`[^`]*`|\*[^*]+\*)/).map(part => part.startsWith('`') ? element('code', part.slice(1, -1)) : part.startsWith('*') && part.length > 2 ? element('em', part.slice(1, -1)) : part);
}

function question({ ask, look: at, answer }) {
  const known = around('details', [element('summary', 'Answer'), around('p', words(answer))]);
  return around('li', [around('p', words(ask)), button('Look', () => look(at), { className: 'look' }), known]);
}

function lesson({ example, about, questions }) {
  return { title: example, body: [around('p', words(about)), around('ol', questions.map(question))], source: example };
}

function stop({ title, parts }, k) {
  const body = parts.map(part => part.code !== undefined ? element('pre', part.code) : around('p', words(part.text)));
  return { title, body: [...body, button('Look', () => look(WALK[k]), { className: 'look' })], source: 'tour' };
}

const guides = { course: lessons.map(lesson), tour: tour.map(stop) };

async function show() {
  const kind = $('guide-kind').value, all = guides[kind];
  $('guide-body').hidden = !all;
  if (!all) return;
  at = Math.max(0, Math.min(at, all.length - 1));
  const { title, body, source } = all[at];
  $('guide-title').textContent = `${at + 1} of ${all.length}: ${title}`;
  $('guide-text').replaceChildren(...body);
  $('guide-before').disabled = at === 0;
  $('guide-next').disabled = at === all.length - 1;
  if ($('examples').selectedOptions[0]?.text !== source) await take(source);
  if (kind === 'tour') await look(WALK[at]);
}

function move(by) {
  at += by;
  return show();
}

// `ways.take` builds the example of a name.
export function begin(ways) {
  take = ways.take;
  $('guide-kind').onchange = () => { at = 0; show(); };
  $('guide-before').onclick = () => move(-1);
  $('guide-next').onclick = () => move(1);
}
