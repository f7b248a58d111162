"""What gcc and clang with their sanitizers make of a program, under qemu-riscv32: an undefined act that they look for would trap."""
import os
import random
import subprocess
import sys

sys.path.insert(0, os.path.join(os.path.dirname(os.path.abspath(__file__)), '..', 'interp'))

import others
import ticks

GCC = ['riscv64-unknown-elf-gcc', '-funsigned-char']
CLANG = ['clang', '--target=riscv32', '-funsigned-char']
GCC_TRAPS = ['-fsanitize=undefined', '-fsanitize-undefined-trap-on-error']
CLANG_TRAPS = ['-fsanitize=undefined', '-fsanitize-trap=undefined']


def all_of_them(source, data, files=()):
    """Statuses and outputs of gcc with its sanitizers, gcc with optimisation, and clang with its sanitizers, without repetition."""
    found = [others.run(GCC + GCC_TRAPS, source, data, '-O0', files), others.run(GCC, source, data, '-O2', files),
             others.run(CLANG + CLANG_TRAPS, source, data, '-O1', files)]
    return sorted(set(found))


def write(name, maker, least, count, seed):
    """Prints so many programs that are made by chance, with status and ticks: those that take this many ticks at least, and of which all say the same."""
    chance, made = random.Random(seed), 0
    print('# Written by tests/outside/scalars/%s.py %d %d; statuses are those of gcc -O0 and clang -O1 with their sanitizers, and of gcc -O2,\n# for RV32IM under qemu-riscv32.' % (name, count, seed))
    while made < count:
        source = maker(chance).program()
        ending, output, spent = ticks.Machine(source).run(60000, b'')
        if ending[0] != 'ended' or spent < least:
            continue
        try:
            agreed = all_of_them(source, b'') == [(ending[1], output)]
        except subprocess.CalledProcessError:
            continue
        if agreed:
            made += 1
            print('=== %s_%d | %d | %d | - | -' % (name, made, ending[1], spent))
            print(source, end='', flush=True)
