#!/usr/bin/env python3
"""All figures of speed beside other programs, in one table from one run: compiling, preprocessing, interpreting, simulating, and what is compiled.

    python3 bench/table.py [CC [TURNS]]

Called from the repository's root; CC is bin/cc by default, TURNS 15. Times are of the processor (user and system) of whole processes, the least of
so many turns, the programs in turn. A count of instructions is exact. What needs a missing tool is left out. The table is Markdown."""
import os
import pathlib
import platform
import re
import shutil
import subprocess
import sys
import tempfile
import time

ROOT = pathlib.Path(__file__).resolve().parent.parent
BENCH = ROOT / 'bench'
GNU = 'riscv64-unknown-elf-gcc'
TICKS = 4_000_000
START = ('int main(void);\nchar stack[65536] __attribute__((aligned(16)));\n'
         '__asm__(".text\\n.globl _start\\n_start: la sp, stack + 65536\\n    call main\\n    li a7, 93\\n    ecall\\n");\n')


class Measure:
    """The least time of some turns, and the memory and page faults of the last."""

    def __init__(self):
        self.seconds = None
        self.memory = self.faults = 0
        self.status = None

    def take(self, command):
        child = subprocess.Popen(command, stdin=subprocess.DEVNULL, stdout=subprocess.DEVNULL, stderr=subprocess.DEVNULL)
        _, status, used = os.wait4(child.pid, 0)
        child.returncode = os.waitstatus_to_exitcode(status)
        took = used.ru_utime + used.ru_stime
        self.seconds = took if self.seconds is None else min(self.seconds, took)
        self.memory, self.faults, self.status = used.ru_maxrss / 1024, used.ru_minflt, child.returncode


def measured(commands, turns):
    """A measure for each name of a command, all in turn."""
    taken = {name: Measure() for name in commands}
    for _ in range(turns):
        for name, command in commands.items():
            taken[name].take(command)
    return taken


def has(tool):
    return shutil.which(tool) is not None


def row(what, ours, others, ratios):
    print('| %s | %s | %s | %s |' % (what, ours, others, ratios), flush=True)


def beside(what, taken, shown):
    """A row: the first program's figures, and the others' with the ratio of times."""
    (_, ours), *others = taken.items()
    row(what, shown(ours), '; '.join('%s %s' % (name, shown(it)) for name, it in others), ', '.join('%.2f of %s' % (ours.seconds / it.seconds, name) for name, it in others if it.seconds))


def spent(it):
    return '%.1f ms, %.1f MiB, %d faults' % (it.seconds * 1000, it.memory, it.faults)


def compilers(cc, source):
    commands = {'zkc': [cc, 'build', source, '-o', 'program']}
    if has('tcc'):
        commands['tcc -c'] = ['tcc', '-c', source, '-o', 'tcc.o']
    if has(GNU):
        commands['gcc -O0 -c'] = [GNU, '-O0', '-c', '-march=rv32im', '-mabi=ilp32', source, '-o', 'gcc.o']
    if has('clang'):
        commands['clang -O0 -c'] = ['clang', '-O0', '-c', '--target=riscv32', '-march=rv32im', source, '-o', 'clang.o']
    return commands


def compiling(cc, turns):
    for kind, lines, what in (('functions', 50000, '50,000 lines of small functions'), ('statements', 50000, '50,000 lines of assignments'), ('dense', 5000, '5,000 dense lines')):
        with open('main.c', 'wb') as file:
            subprocess.run(['bash', str(BENCH / 'lines.sh'), kind, str(lines)], stdout=file, check=True)
        beside('`zkc build`, %s' % what, measured(compilers(cc, 'main.c'), turns), spent)


def preprocessing(cc, turns):
    with open('calls.c', 'wb') as file:
        subprocess.run([sys.executable, str(BENCH / 'pp_source.py'), 'calls'], stdout=file, check=True)
    commands = {'zkc': [cc, 'pp', 'calls.c']}
    if has('gcc'):
        commands['gcc -E -P'] = ['gcc', '-E', '-P', 'calls.c']
    if has('tcc'):
        commands['tcc -E'] = ['tcc', '-E', 'calls.c']
    beside('`zkc pp`, calls of macros', measured(commands, turns), spent)


def interpreting(cc, turns):
    pathlib.Path('start.c').write_text(START, encoding='utf-8')
    for kind in ('scalars', 'arrays', 'switch', 'calls'):
        source = shutil.copy(BENCH / ('interp_%s.c' % kind), 'interp.c')
        commands = {'one tick': [cc, 'interp', source, '--max', '1'], 'ticks': [cc, 'interp', source, '--max', str(TICKS)], 'whole': [cc, 'interp', source]}
        if has(GNU):
            subprocess.run([GNU, '-O0', '-march=rv32im', '-mabi=ilp32', '-ffreestanding', '-nostdlib', '-static', '-Wl,--no-relax', source, 'start.c', '-o', 'interp.elf'], check=True)
            commands['zkc run of gcc -O0 code'] = [cc, 'run', 'interp.elf']
        taken = measured(commands, turns)
        rate = TICKS / max(taken['ticks'].seconds - taken['one tick'].seconds, 1e-6) / 1e6
        run = taken.get('zkc run of gcc -O0 code')
        row('`zkc interp`, %s' % kind, '%.1f M ticks a second' % rate, '', '%.2f times the time of `zkc run` of gcc -O0 code' % (taken['whole'].seconds / run.seconds) if run else '')


def budget(cc, file):
    """The least budget that is enough for a run."""
    def ends(most):
        return subprocess.run([cc, 'run', file, '--max', str(most)], stdin=subprocess.DEVNULL, stdout=subprocess.DEVNULL, stderr=subprocess.DEVNULL, check=False).returncode != 124
    high = 1
    while not ends(high):
        high *= 2
    low = high // 2
    while high - low > 1:
        middle = (low + high) // 2
        low, high = (low, middle) if ends(middle) else (middle, high)
    return high


def program(name, rounds):
    file = '%s_%d.elf' % (name, rounds)
    subprocess.run([GNU, '-O1', '-march=rv32im', '-mabi=ilp32', '-ffreestanding', '-fno-builtin', '-fno-tree-loop-distribute-patterns', '-nostdlib', '-static', '-Wl,--no-relax',
                    '-DROUNDS=%d' % rounds, '-o', file, str(BENCH / (name + '.c'))], check=True)
    return file


def simulating(cc, turns, rounds=500):
    if not has(GNU):
        return
    for name in ('kernel', 'bytes'):
        two, three = budget(cc, program(name, 2)), budget(cc, program(name, 3))
        file, steps = program(name, rounds), two + (rounds - 2) * (three - two)
        commands = {'zkc': [cc, 'run', file, '--max', str(steps)]}
        if has('qemu-riscv32'):
            commands['qemu'] = ['qemu-riscv32', file]
            commands['qemu -singlestep'] = ['qemu-riscv32', '-singlestep', file]
        beside('`zkc run`, `%s.c`' % name, measured(commands, max(1, turns // 5)), lambda it, n=steps: '%.1f M instructions a second' % (n / it.seconds / 1e6))


def compiled(cc):
    kernels = sorted(str(file.relative_to(ROOT)) for file in (BENCH / 'kernels').glob('*.c'))
    for what, files in (('six kernels of scalars', []), ('seven with arrays, statics and calls', kernels)):
        done = subprocess.run(['bash', str(BENCH / 'scalars.sh'), cc, *files], cwd=ROOT, capture_output=True, text=True, check=False)
        means = re.search(r'means: instructions (.*?), bytes (.*?) of (.*)', done.stdout)
        if means:
            row('built code, %s, geometric mean' % what, '', means[3], 'instructions %s; bytes %s' % (means[1].replace(' ', ', '), means[2].replace(' ', ', ')))


def main(words):
    cc = os.path.realpath(words[0] if words else 'bin/cc')
    turns = int(words[1]) if len(words) > 1 else 15
    cpu = re.search(r'model name\s*: (.*)', pathlib.Path('/proc/cpuinfo').read_text(encoding='utf-8'))
    print('%s, %s, %d processors, load %.1f, %d turns' % (time.strftime('%d %B %Y'), cpu[1] if cpu else platform.machine(), os.cpu_count(), os.getloadavg()[0], turns))
    print()
    print('| What | Ours | Others | Ours to others |')
    print('|---|---|---|---|')
    with tempfile.TemporaryDirectory() as work:
        os.chdir(work)
        compiling(cc, turns)
        preprocessing(cc, turns)
        interpreting(cc, turns)
        simulating(cc, turns)
    os.chdir(ROOT)
    compiled(cc)


if __name__ == '__main__':
    main(sys.argv[1:])
