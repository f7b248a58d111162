// Does the calls of the page, so that it stays alive, and keeps its machine. The first message is { module }; each other, { id, what, args },
// is answered by { id, answer, ms } or, where the engine has no stack for it here, by { id, failed }.
import { open } from './zikorape.js';
import { Kept } from './kept.js';

let module, zk, kept;

function calls() {
  if (!zk) { zk = open(module); kept = new Kept(zk); }
  return zk;
}

function answer({ id, what, args }) {
  try {
    const zk = calls(), start = performance.now();
    const got = what === 'kept' ? kept[args[0]](...args.slice(1)) : zk[what](...args);
    postMessage({ id, answer: got, ms: performance.now() - start });
  } catch (error) {
    zk = undefined;      // what a call left that was broken off is in no known state
    postMessage({ id, failed: String(error) });
  }
}

onmessage = ({ data }) => {
  if (data.module) module = data.module;
  else answer(data);
};
