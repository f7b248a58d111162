#!/usr/bin/env python3
"""shapes.py [CC [TICKS]]: `zkc interp` of 24 kinds of programs that do not end, each for so many ticks (4,000,000 by default), and `zkc run` of their
files for five times as many instructions: millions of ticks and of instructions a second of the processor's time, the least of three runs. So it
is seen which kind of program is how much slower than the others. Called from the repository's root; CC is bin/cc by default."""
import os
import subprocess
import sys
import tempfile

MAIN = 'int main(void) { %s }\n'
EIGHT = 'unsigned f(unsigned a, unsigned b, unsigned c, unsigned d, unsigned e, unsigned g, unsigned h, unsigned i) { return a + b + c + d + e + g + h + i; }\n'
SHAPES = {
    'scalars': MAIN % 'unsigned a = 1, b = 2, i = 0; for (;;) { a = a * 3 + b; b = b ^ a >> 3; i++; }',
    'shifts': MAIN % 'unsigned x = 1; for (;;) { x ^= x << 13; x ^= x >> 17; x ^= x << 5; }',
    'quotients': MAIN % 'int a = 1, b = 7; for (;;) { a = a * 31 % 1000003; b = a / 7 + b % 13; }',
    'conditions': MAIN % 'unsigned a = 1, b = 0; for (;;) { b = a & 1 ? b + 1 : a & 2 ? b - 1 : b ^ a; a = a * 5 + 1; if (a & 4 && b < 1000 || a & 8) b++; }',
    'commas': MAIN % 'unsigned a = 0, b = 0; for (;; a++, b--) a = (b++, a + b);',
    'loops in loops': MAIN % 'unsigned i, j, k, s = 0; for (;;) for (i = 0; i < 10; i++) for (j = 0; j < 10; j++) for (k = 0; k < 10; k++) s += i * j + k;',
    'do and continue': MAIN % 'unsigned i; for (;;) { i = 0; do { i++; if (i == 5) continue; } while (i < 10); while (i) i--; }',
    'switch': MAIN % ('unsigned a = 1, s = 0; for (;;) { switch (a & 7) { case 0: s++; break; case 1: s += 2; break; case 2: s += 3; break; case 3: s ^= a; break; '
                      'case 4: s -= a; break; case 5: s *= 3; break; case 6: s |= 1; break; default: s--; } a = a * 5 + s; }'),
    'static objects': MAIN % 'for (;;) { static unsigned n; n++; }',
    'objects of blocks': MAIN % 'unsigned i = 0; for (;;) { unsigned a = i; unsigned b = a + 1; { unsigned c = b * a; i = c + 1; } }',
    'arrays': 'int t[64];\n' + MAIN % 'unsigned i = 0; for (;;) { t[i & 63] = t[(i + 7) & 63] + i; i++; }',
    'arrays of rows': 'int t[8][8];\n' + MAIN % 'unsigned i = 0; for (;;) { t[i & 7][i >> 3 & 7] = t[(i + 3) & 7][i & 7] + 1; i++; }',
    'characters': 'unsigned char t[256];\n' + MAIN % 'unsigned i = 0; signed char c = 0; for (;;) { t[i & 255] = (unsigned char)(t[i * 3 & 255] + c); c = (signed char)i; i++; }',
    'elements counted': 'int t[4];\n' + MAIN % 'unsigned i = 0; for (;;) { t[i & 3]++; i++; t[1] += 2; --t[2]; }',
    'string literals': MAIN % 'unsigned i = 0, s = 0; for (;;) { s += "the quick brown fox"[i & 15]; i++; }',
    'initialised arrays': MAIN % 'unsigned i = 0; for (;;) { unsigned char t[8] = { 1, 2, 3 }; t[i & 7] = (unsigned char)i; i += t[3]; i++; }',
    'array parameters': 'unsigned f(unsigned a[]) { unsigned i, s = 0; for (i = 0; i < 1000000; i++) s += a[i & 15]; return s; }\nunsigned t[16];\n' + MAIN % 'for (;;) f(t);',
    'calls, no argument': 'int g;\nvoid f(void) { g = g ^ 1; }\n' + MAIN % 'for (;;) f();',
    'calls, one argument': 'unsigned f(unsigned a) { return a * 3 + 1; }\n' + MAIN % 'unsigned a = 1; for (;;) a = f(a);',
    'calls, eight arguments': EIGHT + MAIN % 'unsigned a = 1; for (;;) a = f(a, a, a, a, a, a, a, a);',
    'calls with a loop': 'int f(int k) { int s = 0; int i; for (i = 0; i < 10; i++) s += i ^ k; return s; }\n' + MAIN % 'int i = 0; for (;;) { i = (i + f(i)) & 1023; }',
    'calls with an array': 'int f(int k) { int t[16]; t[k & 15] = k; return t[k & 15]; }\n' + MAIN % 'int i = 0; for (;;) { i = (i + f(i)) & 1023; }',
    'recursion': 'int f(int n) { return n < 2 ? n : f(n - 1) + f(n - 2); }\n' + MAIN % 'for (;;) f(20);',
    'deep recursion': 'int f(int n) { if (n == 0) return 0; return f(n - 1) + 1; }\n' + MAIN % 'for (;;) f(1000);',
}


def least(command):
    """The least seconds of the processor that a command takes, which has to end by its budget."""
    best = None
    for _ in range(3):
        child = subprocess.Popen(command, stdin=subprocess.DEVNULL, stdout=subprocess.DEVNULL, stderr=subprocess.DEVNULL)
        _, status, used = os.wait4(child.pid, 0)
        child.returncode = os.waitstatus_to_exitcode(status)
        if child.returncode != 124:
            sys.exit(f'{" ".join(command)} ended with {child.returncode}')
        took = used.ru_utime + used.ru_stime
        best = took if best is None else min(best, took)
    return best


def main(words):
    cc = os.path.abspath(words[0] if words else 'bin/cc')
    ticks = int(words[1]) if len(words) > 1 else 4_000_000
    rows = []
    with tempfile.TemporaryDirectory() as folder:
        for name, source in SHAPES.items():
            path, file = f'{folder}/a.c', f'{folder}/a.elf'
            with open(path, 'w', encoding='utf-8') as out:
                out.write(source)
            subprocess.run([cc, 'build', path, '-o', file], check=True)
            rows.append((ticks / least([cc, 'interp', '--max', str(ticks), path]) / 1e6, 5 * ticks / least([cc, 'run', '--max', str(5 * ticks), file]) / 1e6, name))
    print('| Kind | `zkc interp`, M ticks a second | `zkc run`, M instructions a second |\n|---|---|---|')
    for interpreted, run, name in sorted(rows):
        print(f'| {name} | {interpreted:.1f} | {run:.0f} |')


if __name__ == '__main__':
    main(sys.argv[1:])
