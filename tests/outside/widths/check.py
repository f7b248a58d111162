#!/usr/bin/env python3
"""Holds the program to counts about which a number of 8 or 16 bits would turn, and to the limits of the profile.

    python3 tests/outside/widths/check.py bin/cc

Each row is a source with what it comes to, by the rules of the language: the status of its run and what it writes, or the code of its fault. A source
that is right is built, run, run by qemu-riscv32 where it is there, listed (a line for each word of the file's text) and interpreted.
The last line is 'N passed, M failed'."""
import os
import sys

sys.path.insert(0, os.path.join(os.path.dirname(os.path.abspath(__file__)), '..', '..'))
import harness
from harness import elf

EDGES = (255, 256, 257, 65535, 65536, 65537)
PUT = 'void rv_putbyte(int c);\n'


def body(text):
    return 'int main(void) { ' + text + ' }\n'


def listed(values):
    return ', '.join(map(str, values))


def arrays():
    """Arrays by their number of elements, of each storage, with first values that are written down and that are left out."""
    for n in EDGES + (1048576,):
        yield f'bytes, static, {n}', f'static unsigned char a[{n}] = {{ 1, 2 }};\n' + body(f'a[{n - 1}] = 77; return a[0] + a[1] + a[2] + a[{n - 1}];'), 80, b''
    for n in EDGES:
        yield f'bytes, automatic, {n}', body(f'unsigned char a[{n}] = {{ 1, 2 }}; a[{n - 1}] += 77; return a[0] + a[1] + a[2] + a[{n - 1}];'), 80, b''
        yield f'unset bytes, automatic, {n}', body(f'unsigned char a[{n}]; a[0] = 1; a[{n - 1}] = 3; return a[0] + a[{n - 1}];'), 4, b''
        yield f'int, automatic, {n}', body(f'int a[{n}] = {{ 5 }}; a[{n - 1}] -= 9; return a[0] - a[{n - 1}];'), 14, b''
        yield f'short, automatic, {n}', body(f'short a[{n}] = {{ -5 }}; a[{n - 1}] -= 9; return a[0] - a[{n - 1}];'), 4, b''
        yield f'rows, automatic, {n}', body(f'char a[{n}][2] = {{ {{ 1, 2 }}, {{ 3 }} }}; a[{n - 1}][1] = 9; return a[0][1] + a[1][0] + a[{n - 1}][0] + a[{n - 1}][1];'), 14, b''
        yield f'short rows, automatic, {n}', body(f'char a[2][{n}] = {{ {{ 1, 2 }}, {{ 3 }} }}; a[1][{n - 1}] = 9; return a[0][1] + a[1][0] + a[0][{n - 1}] + a[1][{n - 1}];'), 14, b''
        yield f'by a loop, {n}', body(f'static int a[{n}]; int s = 0; for (int i = 0; i < {n}; i++) a[i] = i; for (int i = 0; i < {n}; i++) s ^= a[i]; return s & 255;'), xor_to(n) & 255, b''
        yield f'by reference, {n}', 'int f(int a[], int i) { return a[i]; }\n' + body(f'int a[{n}] = {{ 5 }}; a[{n - 1}] = 9; return f(a, {n - 1}) - f(a, 0) + f(a, 1);'), 4, b''
        values = [(7 * i + 3) % 251 for i in range(n)]
        yield f'first values, static, {n}', f'unsigned char a[{n}] = {{ {listed(values)} }};\n' + body(f'unsigned s = 0; for (int i = 0; i < {n}; i++) s = s * 31 + a[i]; return s >> 24;'), folded(values) >> 24, b''
        yield f'size by first values, {n}', f'short a[] = {{ {listed(values)} }};\n' + body(f'return sizeof a == {2 * n} && a[{n - 1}] == {values[-1]};'), 1, b''
        yield f'one value too many, {n}', f'char a[{n - 1}] = {{ {listed(values)} }};\n' + body('return 0;'), 520, None
    for n in (255, 256, 257, 3000):
        values = [(5 * i + 1) % 127 for i in range(n)]
        yield f'first values, automatic, {n}', body(f'int a[{n}] = {{ {listed(values)} }}; unsigned s = 0; for (int i = 0; i < {n}; i++) s = s * 31 + a[i]; return s >> 24;'), folded(values) >> 24, b''
        yield f'first values of {n} in more', body(f'char a[65537] = {{ {listed(values)} }}; return a[{n - 1}] + a[65536];'), values[-1], b''
    yield 'an object of a byte more', 'char a[1048577];\n' + body('return 0;'), 712, None
    yield 'subscript one past', body('int i = 65536; char a[65536]; a[i] = 1; return 0;'), 'U5', None
    yield 'subscript one past a row', body('int i = 256; static char a[3][256]; return a[1][i];'), 'U5', None
    yield 'subscript 256 of 256', body('int i = 256; static char a[256]; return a[i];'), 'U5', None
    yield 'subscript minus one', body('int i = -1; static char a[256]; return a[i];'), 'U5', None
    yield 'subscript 2 to the 32', body('unsigned i = 4294967295u; static char a[256]; return a[i];'), 'U5', None


def xor_to(n):
    x = 0
    for i in range(n):
        x ^= i
    return x


def folded(values):
    s = 0
    for v in values:
        s = (s * 31 + v) & 0xffffffff
    return s


def texts():
    """String literals by their length."""
    for n in EDGES:
        characters = ''.join('abcdefghijklmnopqrstuvwxyz'[i % 26] for i in range(n))
        parts = ' '.join('"' + characters[i:i + 4000] + '"' for i in range(0, n, 4000))
        last = ord(characters[-1])
        yield f'a text of {n}', f'char t[] = {parts};\n' + body(f'return sizeof t == {n + 1} && t[{n}] == 0 ? t[{n - 1}] : 0;'), last, b''
        yield f'a text of {n} without its zero', f'char t[{n}] = {parts};\n' + body(f'return t[{n - 1}];'), last, b''
        yield f'a text of {n}, automatic', body(f'char t[] = {parts}; return t[{n}] == 0 ? t[{n - 1}] : 0;'), last, b''
        yield f'a text of {n} in more, automatic', body(f'char t[{n + 300}] = {parts}; return t[{n}] + t[{n + 299}] == 0 ? t[{n - 1}] : 0;'), last, b''
        yield f'a text of {n} passed', 'int f(const char t[], int i) { return t[i]; }\n' + body(f'return f({parts}, {n - 1}) + f({parts}, {n});'), last, b''
        yield f'a text of {n} in too little', f'char t[{n - 1}] = {parts};\n' + body('return 0;'), 520, None
    for n, code in ((4093, None), (4094, 703)):
        yield f'a spelling of {n + 2} bytes', f'char t[] = "{"x" * n}";\n' + body('return sizeof t == 4094;'), code or 1, None if code else b''
        yield f'a name of {n + 2} bytes', f'int {"x" * (n + 2)} = 9;\n' + body(f'return {"x" * (n + 2)};'), code or 9, None if code else b''


def functions():
    """Functions by their number, their parameters, their objects, their frames."""
    for n in (255, 256, 257, 4096, 16384):
        lines = ['int f0(int x) { return x + 1; }'] + [f'int f{i}(int x) {{ return x + {i % 100}; }}' for i in range(1, n - 1)]
        yield f'{n} functions', '\n'.join(lines) + '\n' + body(f'return f0(1) + f{n - 2}(2) + f{n // 2}(3);'), (2 + 2 + (n - 2) % 100 + 3 + (n // 2) % 100) & 255, b''
    yield '16385 functions', '\n'.join(f'void f{i}(void) {{ }}' for i in range(16384)) + '\n' + body('return 0;'), 715, None
    for n in (1, 2, 7, 8, 9, 10, 31, 32, 33, 127, 128, 255, 256, 257, 1000, 2500):
        parameters = ', '.join(f'int a{i}' for i in range(n))
        arguments = ', '.join(str(i % 90 + 1) for i in range(n))
        shown = sorted({0, n // 2, n - 1, min(n - 1, 7), min(n - 1, 8)})
        wanted = bytes(i % 90 + 1 for i in shown)
        puts = ' '.join(f'rv_putbyte(a{i});' for i in shown)
        yield f'{n} parameters', PUT + f'int f({parameters}) {{ {puts} return a{n - 1}; }}\n' + body(f'return f({arguments});'), (n - 1) % 90 + 1, wanted
        mixed = ', '.join(('char', 'short', 'unsigned', 'signed char')[i % 4] + f' a{i}' for i in range(n))
        yield f'{n} parameters of many types', f'int f({mixed}) {{ return a{n - 1} + a0; }}\n' + body(f'return f({", ".join(str(i % 100) for i in range(n))});'), (n - 1) % 100, b''
        arrays_of = ', '.join(f'int a{i}[]' for i in range(n))
        yield f'{n} arrays passed', f'int f({arrays_of}) {{ a{n - 1}[1] = 40; return a0[0] + a{n // 2}[0]; }}\n' + body(f'int x[2] = {{ 1, 2 }}; int y[2] = {{ 5, 6 }}; int r = f({", ".join("y" if i % 2 else "x" for i in range(n))}); return r + {"y" if (n - 1) % 2 else "x"}[1];'), 1 + (5 if n // 2 % 2 else 1) + 40, b''
    for n in (255, 256, 257, 1900):
        objects = ' '.join(f'int a{i} = {i % 7};' for i in range(n))
        yield f'{n} objects', body(f'{objects} return a{n - 1} + a{n // 2} * 10;'), ((n - 1) % 7 + n // 2 % 7 * 10) & 255, b''
    for n in (255, 256, 1900):
        cases = ' '.join(f'case {i * 257 % 65537}: return {i % 200 + 1};' for i in range(n))
        for i in (0, 1, n - 1):
            yield f'case {i} of {n}', f'int f(int x) {{ switch (x) {{ {cases} default: return 0; }} }}\n' + body(f'return f({i * 257 % 65537});'), i % 200 + 1, b''
        yield f'no case of {n}', f'int f(int x) {{ switch (x) {{ {cases} default: return 250; }} }}\n' + body('return f(-1);'), 250, b''
    # the weight of a function is its bytes, 64, and 16 for each node, in sixteens; here main has 12: itself, its block, the declarator and
    # its size, six of the assignment, two of the return
    for weight in (256, 272, 2032, 2048, 2064, 4096, 65520, 65536, 65552, 131072, 1048560, 1048576):
        room = weight - 64 - 16 * 12
        if room > 0:
            yield f'a function of weight {weight}', body(f'char a[{room}]; a[{room - 1}] = 9; return 3;'), 3, b''
    yield 'a weight past the limit', body(f'char a[{1048576 - 64 - 16 * 12 + 1}]; a[0] = 9; return 3;'), 714, None
    for n in (255, 256, 257, 65535 // 304, 65536 // 304 + 1, 3000):
        yield f'{n} calls deep', 'int f(int n) { if (n == 0) return 7; return f(n - 1); }\n' + body(f'return f({n});'), 7, b''
    yield 'void of 65536 calls', 'int n; void f(void) { n++; }\n' + body('for (int i = 0; i < 65536; i++) f(); return n == 65536;'), 1, b''


def programs():
    """Programs by the bytes of their text and the words of their data; distances of jumps and calls."""
    for n in (31, 32, 255, 256, 257, 511, 512, 980):
        yield f'a branch over {n} sums', body('unsigned x = 1; if (x == 1) {' + ' x = x * 3 + 1;' * n + ' } return x & 127;'), times(1, n) & 127, b''
        yield f'a loop over {n} sums', body('unsigned x = 1; for (int i = 0; i < 3; i++) {' + ' x = x * 3 + 1;' * n + ' } return x & 127;'), times(1, 3 * n) & 127, b''
    for n in (20, 40, 80, 160):
        sums = 'x = x * 3 + 1; ' * 180
        lines = [f'unsigned f{i}(unsigned x) {{ {sums} return x; }}' for i in range(n)]
        yield f'{n} long functions', '\n'.join(lines) + '\nint main(void) { unsigned x = 1; ' + ' '.join(f'x = f{i}(x);' for i in (0, n - 1, n // 2, 1)) + ' return x & 127; }\n', times(1, 4 * 180) & 127, b''
    for n in (255, 256, 65535, 65536, 262143, 262144):
        yield f'{n} words of data', f'int a[{n}]; int b = 6;\n' + body(f'a[{n - 1}] = 3; b++; return a[{n - 1}] + a[0] + b;'), 10, b''
    full = ''.join(f'char a{i}[1048576]; ' for i in range(16))
    yield 'all the data', full + '\n' + body('a15[1048575] = 4; a0[0] = 5; return a15[1048575] + a0[0] + a7[65536];'), 9, b''
    yield 'all the data and a byte', full + 'char b;\n' + body('return 0;'), 713, None
    for n in (255, 256, 65535, 65536):
        yield f'{n} bytes out', PUT + body(f'for (int i = 0; i < {n}; i++) rv_putbyte(i); return 1;'), 1, bytes(i & 255 for i in range(n))
    yield 'a status of 256 and more', body('return 256 * 3 + 41;'), 41, b''
    yield 'an endless loop', body('for (;;) ;'), 'endless', None
    yield 'an endless loop of nothing', body('while (1) { }'), 'endless', None
    yield 'an endless do', body('int i = 0; do { i ^= 1; } while (1);'), 'endless', None
    yield 'an endless loop with a continue', body('for (int i = 0; ; i ^= 1) continue;'), 'endless', None


def times(x, n):
    for _ in range(n):
        x = (x * 3 + 1) & 0xffffffff
    return x


def limits():
    """Nodes and depth at their limits and one past."""
    for n, code in ((7997, None), (7998, 710)):
        # main, its block, the return and the 0 of it are nodes, and an empty statement each
        yield f'{n} empty statements', body(';' * (n - 1) + 'return 0;'), code or 0, None if code else b''
    for n, code in ((127, None), (128, 707)):
        yield f'{n} conditionals deep', '#if 1\n' * n + '#endif\n' * n + body('return 4;'), code or 4, None if code else b''
    for n, code in ((127, None), (128, 705)):
        names = ', '.join(f'p{i}' for i in range(n))
        yield f'a macro of {n} parameters', f'#define m({names}) p{n - 1}\n' + body(f'return m({", ".join(["1"] * (n - 1) + ["8"])});'), code or 8, None if code else b''
    for value, wanted in ((4294967295, 1), (4294967296, 609), (18446744073709551615, 609), (18446744073709551616, 303)):
        yield f'the constant {value}', body(f'return {value}u == 4294967295u;'), wanted, b'' if wanted < 256 else None


def held(case, source, wanted, output):
    """What each command comes to."""
    cc = case.program
    cc.write('main.c', source)
    if output is None and isinstance(wanted, int):
        for words in (('build', 'main.c', '-o', 'out'), ('interp', 'main.c'), ('list', 'main.c')):
            status, _, line = cc.run(*words)
            case.expect(words[0], (status, line.decode('latin-1').split(': ', 1)[-1].split(' ')[0]), (1, str(wanted)))
    elif wanted == 'endless':
        case.expect('interp', cc.run('interp', 'main.c', '--max', '100000')[0], 124)
        case.expect('build', cc.run('build', 'main.c', '-o', 'out')[0], 0)
        case.expect('run', cc.run('run', 'out', '--max', '100000')[0], 124)
    elif isinstance(wanted, str):
        status, _, line = cc.run('interp', 'main.c')
        case.expect('interp', (status, line.decode('latin-1').strip().split(' ')[-1]), (123, wanted))
        case.expect('build', cc.run('build', 'main.c', '-o', 'out')[0], 0)
    else:
        held_all_ways(case, wanted, output)


def held_all_ways(case, status, output):
    cc = case.program
    case.expect('interp', cc.run('interp', 'main.c')[:2], (status, output))
    built = cc.run('build', 'main.c', '-o', 'out')
    case.expect('build', built, (0, b'', b''))
    if built[0] != 0:
        return
    case.expect('run', cc.run('run', 'out')[:2], (status, output))
    listed, lines, _ = cc.run('list', 'main.c')
    case.expect('list', (listed, lines.count(b'\n')), (0, len(elf.words_of(cc.read('out')))))
    if qemu := case.tool('qemu-riscv32'):
        case.expect('qemu-riscv32', cc.run('./out', by=[qemu])[:2], (status, output))


def cases(_):
    for part in (arrays, texts, functions, programs, limits):
        for name, *row in part():
            yield harness.Row(name, held, *row)


if __name__ == '__main__':
    sys.exit(harness.main(cases))
