// node thread.mjs told.mjs FOLDER ROWS: what the modules in the page's FOLDER tell of each row of ROWS (told.py makes them), against what the program
// said, byte for byte. The last line counts.
import fs from 'fs';
import { compile, open } from '../../../page/zikorape.js';

const [folder, rows] = process.argv.slice(2);
const modules = ['zikorape', 'diagnostics', 'analysis'].map(name => compile(fs.readFileSync(`${folder}/${name}.wasm`)));
let [zk, explainer, analyser] = modules.map(open), passed = 0, failed = 0;

const latin = text => Buffer.from(text, 'latin1');
const plain = answer => JSON.stringify([answer.status, Buffer.from(answer.output).toString('latin1'), Buffer.from(answer.message).toString('latin1')]);

function answered(call, files, main, row) {
  if (call.startsWith('form')) return zk.form(files, main, Number(call.slice(5)));
  if (call === 'explain interp') return analyser.explainRun(files, main, latin(row.input), row.ticks);
  if (call === 'trace') return analyser.trace(files, main, latin(row.input), 0, row.ticks, 0);
  return (call === 'verify' ? analyser : explainer)[call](files, main);
}

function tried(call, files, main, row) {
  try { return plain(answered(call, files, main, row)); } catch (error) { [zk, explainer, analyser] = modules.map(open); return String(error); }
}

for (const row of fs.readFileSync(rows, 'utf8').split('\n').filter(Boolean).map(line => JSON.parse(line))) {
  const files = row.files.map(([name, text]) => [latin(name), latin(text)]), main = files[0][0];
  for (const [call, wanted] of Object.entries(row.wanted)) {
    const found = tried(call, files, main, row);
    if (found === JSON.stringify(wanted)) { passed++; continue; }
    failed++;
    console.log(`FAIL ${row.name}, ${call} ${found.slice(0, 300)}`);
  }
}
if (passed < 500) { failed++; console.log(`FAIL there are ${passed} answers`); }
console.log(`${passed} passed, ${failed} failed`);
process.exitCode = failed ? 1 : 0;
