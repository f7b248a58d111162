#!/usr/bin/env python3
"""Rows worked by hand, under `build` and `run`: `worked.py CC`. The last line counts what passed and failed."""
import os
import sys

sys.path.insert(0, os.path.join(os.path.dirname(os.path.abspath(__file__)), '..', '..'))
import harness
from harness import ways

HEADER = '#include <rvio.h>\n'

UNDEFINED = [
    ('unsigned short a = 65535; return a * a;', 'U1'),
    ('int a = -2147483647 - 1; return a % -1;', 'U1'),
    ('int a = -2147483647 - 1; return a / -1;', 'U1'),
    ('int x = x; return x;', 'U6'),
    ('int a = 0; return 1 / a;', 'U2'),
    ('int a = 32; return 1 << a;', 'U3'),
    ('int a = -1; return a << 1;', 'U4'),
    ('int a = 2147483647; a++; return 0;', 'U1'),
]
ROWS = [
    ('return 42;', 42), ('return 300;', 44), ('return -1;', 255), ('', 0), ('return -1 < 1u;', 0), ('char c; return (int)sizeof(c+c);', 4),
    ('_Bool b = 256; return b;', 1), ('signed char c = 200; return c < 0;', 1), ("return '\\377' == 255;", 1), ('return -7 / 2 + 10;', 7),
    ('return (-8 >> 1) + 8;', 4), ('return -2147483647-1 < 0;', 1), ('switch (1) { int x = 1; case 1: x = 1; return x; }', 1),
    ('int x = 0; if (x == 0) {%s} return x;' % (' x = x + 1;' * 400), 144),
    ('int x = 0; if (x == 0) {%s} return x;' % (' x = x + 1;' * 1300), 20), ('int x = 0; while (x < 1300) {%s} return x;' % (' x = x + 1;' * 1300), 20),
    ('return %s0%s;' % ('(' * 252, ')' * 252), 0), ('int i; for (i = 0; i < 5; i++) ; return i;', 5),
]
PROGRAMS = [
    ('void g(void) { rv_exit(9); }', 'g(); return 1;', 9, b''),
    ('int f(int n) { if (n == 0) return 0; return f(n - 1); }', 'return f(3000);', 0, b''),
    ('int p(int c) { rv_putbyte(c); return c; }', 'return p(65) - p(66) + 2;', 1, b'AB'),
    ('int p(int c) { rv_putbyte(c); return c; } void q(int a, int b, int c) { }', 'q(p(65), p(66), p(67)); return 0;', 0, b'ABC'),
    ('void w(int a, int b, int c, int d, int e, int f, int g, int h, int i, int j) { rv_putbyte(i); rv_putbyte(j); }',
     'w(65, 66, 67, 68, 69, 70, 71, 72, 73, 74); return 0;', 0, b'IJ'),
    ('', 'int a[2]; a[0] = 1; return a[0];', 1, b''),
    ('', 'return "a"[0];', 97, b''),
    ('', 'static int n; return n;', 0, b''),
    ('int n;', 'return n;', 0, b''),
    ('int f(int a[]) { return a[0]; }', 'int a[1]; a[0] = 3; return f(a);', 3, b''),
    ('', 'int a[2] = { 1 }; return a[0];', 1, b''),
    ('', 'char a[2] = "a"; return a[0];', 97, b''),
    ('int m[2][2] = {{1, 2}, {3, 4}};', 'return m[1][0] * 10 + (int)(sizeof(m) / sizeof(m[0]));', 32, b''),
]
REFUSED = [
    ('int main(void) { return -2147483648; }', '609 left out: long long constant'),
    ('int main(void) { return %s0%s; }' % ('(' * 253, ')' * 253), '709 limit: depth'),
    ('int main(void) { return y; }', '528 undeclared name'),
]


def main_of(body, before=''):
    return HEADER + (before + '\n' if before else '') + 'int main(void) { %s }\n' % body


def undefined(case, body, act):
    """It builds; interpreted, its first undefined behaviour is told."""
    sources = ways.Sources(case.program, 'int main(void) { %s }\n' % body)
    case.expect('interp', sources.interpret(), (123, b'', b'main.c:1: undefined %s\n' % act.encode()))
    case.expect('build', sources.build(), (0, b'', b''))


def refused(case, source, fault):
    sources = ways.Sources(case.program, source + '\n')
    case.expect('build', sources.build(), (1, b'', b'main.c:1: %s\n' % fault.encode()))
    case.expect('file', sources.file(), b'')


def does(case, source, data, status, output):
    ways.four_ways(case, 'program', ways.Sources(case.program, source), data, status, output)


def endless(case):
    sources = ways.Sources(case.program, main_of('for (;;) rv_putbyte(65);'))
    case.expect('build', sources.build(), (0, b'', b''))
    for way in (sources.interpret, sources.simulate):
        status, output, line = way(b'', 1000)
        case.expect(way.__name__, (status, output.strip(b'A'), line, len(output) > 10), (124, b'', b'cc: budget used\n', True))


def counts(case):
    """Instructions by ticks."""
    sources = ways.Sources(case.program, main_of('int i; for (i = 0; i < 5; i++) ; return i;'))
    sources.build()
    ticks = ways.least(lambda most: sources.interpret(b'', most)[0] != 124)
    instructions = ways.least(lambda most: sources.simulate(b'', most)[0] != 124)
    case.holds('%d instructions for %d ticks' % (instructions, ticks), instructions <= 60 * ticks + 66)


def deep(case):
    """A recursion past the stack traps, and writes nothing that the meaning does not."""
    before = 'int f(int n) { if (n == 0) return 0; return f(n - 1); }'
    sources = ways.Sources(case.program, main_of('return f(1000000);', before))
    case.expect('build', sources.build(), (0, b'', b''))
    status, output, _ = sources.simulate(b'')
    case.expect('run', (status, output), (125, b''))


def largest():
    """The largest function, the largest program, and the most functions that there may be."""
    yield 'a function of 8,000 nodes', main_of('rv_putbyte(65); ' * 2664 + 'return 1 + 1 + 1;'), 3, b'A' * 2664
    whole = ''.join('int m%d(void) {%s}\n' % (number, ';' * 7998) for number in range(32)) + 'int main(void) {%s}\n' % (';' * 6142)
    yield 'a program of 262,144 nodes', whole, 0, b''
    whole = ''.join('int f%d(int a) { return %s; }\n' % (number, 'f%d(a + 1)' % (number - 1) if number % 500 else 'a') for number in range(16380))
    yield '16,381 functions', whole + 'int main(void) { return f16379(0) + f499(1); }\n', (379 + 499 + 1) & 255, b''


def cases(_):
    for name, source, status, output in largest():
        yield harness.Row(name, does, source, b'', status, output)
    for body, status in ROWS:
        yield harness.Row('M{%s}' % body[:60], does, 'int main(void) { %s }\n' % body, b'', status, b'')
    for before, body, status, output in PROGRAMS:
        yield harness.Row('%s M{%s}' % (before[:40], body[:60]), does, main_of(body, before), b'', status, output)
    for body, act in UNDEFINED:
        yield harness.Row('undefined: ' + body, undefined, body, act)
    for source, fault in REFUSED:
        yield harness.Row('refused: ' + source[:60], refused, source, fault)
    echo = main_of('int c; while ((c = rv_getbyte()) != -1) rv_putbyte(c); return 0;')
    for data in (b'', bytes(range(256)), bytes(range(255, -1, -1)) * 4):
        yield harness.Row('echo of %d bytes' % len(data), does, echo, data, 0, data)
    for part in (endless, counts, deep):
        yield harness.Row(part.__name__, part)


if __name__ == '__main__':
    sys.exit(harness.main(cases))
