// node thread.mjs SCRIPT ARGS..: a script in a thread with 4 MiB of stack. Node's own of 984 KiB is too small for sources of depth 256
// once the engine has compiled the module anew.
import path from 'path';
import { Worker } from 'worker_threads';

const [script, ...argv] = process.argv.slice(2);
const worker = new Worker(path.resolve(script), { argv, resourceLimits: { stackSizeMb: 4 } });
worker.on('error', error => { console.log(String(error)); console.log('0 passed, 1 failed'); process.exitCode = 1; });
worker.on('exit', code => { process.exitCode ||= code; });
