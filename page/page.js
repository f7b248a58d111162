// The page: what its reader does, and what is shown of it.
import { $, hex, say, text } from './dom.js';
import { ask, load } from './asking.js';
import { examples } from './examples.js';
import * as sources from './sources.js';
import * as findings from './findings.js';
import * as why from './why.js';
import * as tabs from './tabs.js';
import * as forms from './forms.js';
import * as joined from './joined.js';
import * as listing from './listing.js';
import * as running from './running.js';
import * as traces from './traces.js';
import * as variables from './variables.js';
import * as guide from './guide.js';
import { showMachine, showMemory } from './machine.js';
import { showFrames } from './stack.js';
import { setNext } from './marks.js';
import { tableOf } from './table.js';
import { NEVER, input, program, session } from './session.js';

const TABLES = ['listing-lines', 'frame-lines', 'memory', 'registers', 'puts'];
const TEXTS = ['output', 'where', 'next-instruction', 'depth', 'tick-state', 'tick-output', 'instruction-state', 'instruction-output', 'agree', 'listing-rest', 'puts-rest', 'verdict'];
const OF_A_FILE = ['run', 'statement', 'statement-back', 'step', 'back', 'to-line', 'restart', 'count', 'break-at', 'from', 'ticks', 'instructions', 'ticks-less', 'ticks-more',
  'instructions-less', 'instructions-more', 'event-before', 'event-behind', 'event', 'event-less', 'event-more'];
const TICKS = 1e7;      // for which a run's meaning is followed

let typing;

// ---- building

// What was built is not what is in the editor.
function stale() {
  clearTimeout(typing);
  if (running.isRunning()) running.stop();
  session.file = undefined;
  enable();
  return ++session.turn;
}

function forget() {
  Object.assign(session, { file: undefined, table: undefined, seen: undefined, previous: undefined, bound: undefined, typed: [] });
  for (const id of TABLES) $(id).replaceChildren();
  for (const id of TEXTS) $(id).textContent = '';
  for (const id of ['word', 'waits']) $(id).hidden = true;
  running.forget();
  variables.forget();
  findings.clear();
  setNext(undefined);
  joined.mark(undefined, 'source');
  enable();
}

function enable() {
  for (const id of OF_A_FILE) $(id).disabled = !session.file;
}

async function build() {
  const turn = stale(), built = await ask('build', ...program());
  if (turn !== session.turn || built.stopped) return;
  forget();
  if (built.failed) return say(`This browser has no stack for it (${built.failed}). The program zkc has.`);
  await forms.showTokens();
  if (turn === session.turn && !$('forms').hidden) await forms.show();
  if (turn !== session.turn) return;
  if (built.answer.status !== 0) return refused(built.answer.message);
  session.file = built.answer.output;
  await showCode(turn);
  if (turn !== session.turn) return;
  await running.go(0);
  if (turn !== session.turn || !session.seen || session.seen.outcome === 4) return;
  enable();
  const where = built.here ? 'on the page, since the worker had no stack for it' : `in ${built.ms?.toFixed(1) ?? '?'} ms`;
  say(`Built: ${session.file.length} bytes, ${where}. After 0 instructions the program goes on.`);
  await further();
}

async function refused(message) {
  say(message.trim());
  await why.explain(message);
}

// What is wanted beside the file.
async function further() {
  const turn = session.turn;
  await why.warn();
  if (turn === session.turn && $('verify').checked) await why.verify();
  if (turn === session.turn && !$('both').hidden) await traces.measure();
}

async function showCode(turn) {
  const table = await tableOf(), code = await ask('list', ...program());
  if (turn !== session.turn) return;
  session.table = table;
  if (code.answer) listing.showListing(text(code.answer.output));
  showFrames();
}

// ---- running

function breakpoint() {
  const word = $('break-at').value.trim(), address = parseInt(word.replace(/^0x/i, ''), 16);
  return word === '' || Number.isNaN(address) ? NEVER : address >>> 0;
}

function breakAt(address) {
  $('break-at').value = hex(address);
  say(`The breakpoint is at ${hex(address)}: run goes there.`);
}

// A run that ended may have been undefined: then it is said, and where.
async function whenEnded() {
  const turn = session.turn, got = await ask('interpret', ...program(), input(), TICKS);
  if (turn !== session.turn || got.answer?.status !== 123 || got.answer.message === '') return;
  await why.undefinedAct(got.answer.message, input(), TICKS);
  say(`The file ended, but its meaning is undefined: ${got.answer.message.trim()}.`);
}

function shown(tab) {
  if (session.seen) showMachine();
  if (session.file && tab.id === 'tab-both') traces.measure();
  if (tab.id === 'tab-forms') forms.show();
  if (tab.id === 'tab-variables' || tab.id === 'tab-frames') variables.beside();
  joined.revealIn({ 'tab-tokens': 'token-text', 'tab-listing': 'listing-lines' }[tab.id]);
}

// ---- beginning

async function share() {
  history.replaceState(null, '', sources.fragment(tabs.current(), session.seen?.steps ?? 0));
  try {
    await navigator.clipboard.writeText(location.href);
    say('The link is copied; it is in the address bar too.');
  } catch {
    say('The link is in the address bar.');
  }
}

function take(index) {
  const { files, input: given } = examples[index];
  $('examples').value = index;
  sources.setFiles(files);
  $('input').value = given;
  $('ask').checked = false;
  $('break-at').value = '';
  return build();
}

// What a link has: the source, and where its reader was.
async function fromLink() {
  const given = sources.fromFragment();
  if (!given) return false;
  $('examples').value = '';
  await build();
  tabs.choose(given.tab);
  if (given.step > 0 && session.file) await running.go(given.step);
  return true;
}

function typed() {
  $('examples').value = '';
  findings.clear();
  stale();
  sources.redraw();
  typing = setTimeout(build, 400);
}

function addFile() {
  const name = $('new-name').value.trim();
  if (name === '') return;
  $('new-name').value = '';
  sources.add(name);
  $('source').focus();
  build();
}

function keys(event) {
  const { key, ctrlKey, shiftKey } = event;
  const to = key === 'Enter' && ctrlKey ? 'build' : { F8: 'run', F9: shiftKey ? 'back' : 'statement-back', F10: ctrlKey ? 'to-line' : shiftKey ? 'step' : 'statement' }[key];
  if (!to) return;
  event.preventDefault();
  if (!$(to).disabled) $(to).click();
}

const atCursor = () => { if (document.activeElement === $('source') && session.file) joined.mark(sources.cursor(), 'source'); };

function listen() {
  const clicks = {
    build, share, stop: running.stop, run: () => running.runTo([breakpoint()]), statement: running.statement, 'statement-back': running.statementBack,
    step: running.step, back: running.back, 'to-line': () => running.toLine(sources.cursor()), restart: () => running.go(0),
    add: addFile, remove: () => { sources.remove(); build(); }, 'to-fault': findings.toFault,
  };
  for (const [id, done] of Object.entries(clicks)) $(id).onclick = () => done();
  const changes = {
    examples: () => { if ($('examples').value !== '') take(Number($('examples').value)); }, file: () => sources.choose(Number($('file').value)), input: build,
    count: () => running.go(Number($('count').value) || 0), from: showMemory, warnings: why.warn, verify: why.verify,
  };
  for (const [id, done] of Object.entries(changes)) $(id).onchange = () => done();
  $('source').oninput = typed;
  for (const event of ['keyup', 'click']) $('source').addEventListener(event, atCursor);
  $('new-name').onkeydown = event => { if (event.key === 'Enter') addFile(); };
  addEventListener('keydown', keys);
  addEventListener('hashchange', fromLink);
}

async function begin() {
  $('examples').replaceChildren(new Option('choose one', ''), ...examples.map(({ name }, k) => new Option(name, k)));
  sources.begin(findings.place);
  findings.begin(build);
  tabs.begin(shown);
  forms.begin();
  listing.begin({ runTo: running.runTo, breakAt });
  running.begin(variables.beside, whenEnded);
  variables.begin();
  traces.begin();
  guide.begin({ take: name => take(examples.findIndex(one => one.name === name)), build });
  listen();
  enable();
  try {
    await load(busy => { $('stop').disabled = !busy && !running.isRunning(); });
  } catch (error) {
    return say(`The compiler could not be loaded: ${error.message}`);
  }
  $('version').textContent = (await ask('version')).answer ?? '';
  if (!await fromLink()) await take(0);
  document.documentElement.dataset.ready = 'true';
}

begin();
