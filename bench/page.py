#!/usr/bin/env python3
"""Measures the page's module beside the library that it is made of: milliseconds of the processor, the least of several turns in one process each.

    python3 bench/page.py [OUT [TURNS]]

Called from the repository's root, after `sh page/build.sh`. OUT is where `sh bindings/build.sh OUT` left libzikorape.so, by default
bindings/out; TURNS is 20. It needs node. A first call of the module, which the engine compiles meanwhile, is measured alone."""
import json
import os
import subprocess
import sys
import tempfile
import threading
import time

ROOT = os.path.abspath(os.path.join(os.path.dirname(os.path.abspath(__file__)), '..'))
sys.path.insert(0, os.path.join(ROOT, 'bindings', 'python'))
import zikorape  # noqa: E402

LOOP = '''int main(void) {
    unsigned sum = 0;
    for (unsigned k = 0; k < 300000; k++)
        sum += k ^ sum >> 3;
    return (int)(sum % 100);
}
'''


def functions(lines):
    """So many lines, in functions of ten."""
    parts = ['int f0(int a, unsigned b) { return a + (int)b; }\n']
    for k in range(1, lines // 10):
        parts.append('''int f%d(int a, unsigned b)
{
    int s = 0;
    for (int i = 0; i < %d; i++) {
        if (a < i) s += (int)b %% 17 - i * 3;
        else s -= a %% %d + (i << 2);
    }
    while (s > 100) s /= 2;
    return s + f%d((int)b, (unsigned)a);
}
''' % (k, k % 90, k % 7 + 1, k - 1))
    return ''.join(parts) + 'int main(void) { return f1(1, 2); }\n'


SOURCES = {'lines': functions(5000), 'loop': LOOP}
NAMES = ['build', 'listing', 'interp', 'run', 'step']
SHOWN = {
    'build': 'build of 5,000 lines', 'listing': 'its listing', 'interp': 'interp of a loop of 300,000 rounds',
    'run': 'run of the same', 'step': 'step to its end',
}


def native(path, turns):
    zk = zikorape.Library(path)
    file = zk.build([('loop.c', LOOP)], 'loop.c').output
    work = {
        'build': lambda: zk.build([('lines.c', SOURCES['lines'])], 'lines.c'), 'listing': lambda: zk.listing([('lines.c', SOURCES['lines'])], 'lines.c'),
        'interp': lambda: zk.interpret([('loop.c', LOOP)], 'loop.c'), 'run': lambda: zk.run(file), 'step': lambda: zk.step(file, 10 ** 9),
    }
    found = {}
    for name in NAMES:
        taken = []
        for _ in range(turns):
            start = time.process_time()
            work[name]()
            taken.append((time.process_time() - start) * 1000)
        found[name] = min(taken)
    return found


SCRIPT = '''
import fs from 'fs';
const { compile, open } = await import(process.argv[2]);
const [sources, turns] = [JSON.parse(fs.readFileSync(process.argv[4], 'utf8')), Number(process.argv[5])];
const now = () => { const { user, system } = process.cpuUsage(); return (user + system) / 1000; };
const begun = now(), zk = open(compile(fs.readFileSync(process.argv[3])));
const of = key => [[key + '.c', sources[key]]];
const file = zk.build(of('loop'), 'loop.c').output;
const work = {
  build: () => zk.build(of('lines'), 'lines.c'), listing: () => zk.list(of('lines'), 'lines.c'), interp: () => zk.interpret(of('loop'), 'loop.c'),
  run: () => zk.run(file, 'a.out'), step: () => zk.step(file, new Uint8Array(), 1e9, 0, 1, 0, 0),
};
const timed = call => { const start = now(); call(); return now() - start; };
const found = { first: now() - begun + timed(work.build) };
for (const [name, call] of Object.entries(work)) found[name] = Math.min(...Array.from({ length: turns }, () => timed(call)));
console.log(JSON.stringify(found));
'''


def module(turns):
    with tempfile.TemporaryDirectory() as work:
        script, sources = os.path.join(work, 'speed.mjs'), os.path.join(work, 'sources.json')
        with open(script, 'w') as file:
            file.write(SCRIPT)
        with open(sources, 'w') as file:
            json.dump(SOURCES, file)
        done = subprocess.run(['node', '--stack-size=3900', script, os.path.join(ROOT, 'page', 'zikorape.js'), os.path.join(ROOT, 'page', 'zikorape.wasm'),
                               sources, str(turns)], capture_output=True, text=True)
    return json.loads(done.stdout) if done.returncode == 0 else sys.exit(done.stderr)


def main():
    out = sys.argv[1] if len(sys.argv) > 1 else os.path.join(ROOT, 'bindings', 'out')
    turns = int(sys.argv[2]) if len(sys.argv) > 2 else 20
    for path in (os.path.join(out, 'libzikorape.a'), os.path.join(ROOT, 'page', 'zikorape.wasm')):
        print('%-40s %9d bytes' % (os.path.basename(path), os.path.getsize(path)))
    ours, theirs = native(os.path.join(out, 'libzikorape.so'), turns), module(turns)
    print('%-40s %8s %8s %6s' % ('', 'library', 'module', 'ratio'))
    for name in NAMES:
        print('%-40s %8.2f %8.2f %6.2f' % (SHOWN[name], ours[name], theirs[name], theirs[name] / ours[name]))
    print('%-40s %17.2f' % ('the first build, with the start', theirs['first']))


if __name__ == '__main__':
    threading.stack_size(16 << 20)
    runner = threading.Thread(target=main)
    runner.start()
    runner.join()
