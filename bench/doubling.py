#!/usr/bin/env python3
"""Shapes of sources, each at a size, twice and four times it: what `cc build` takes, and how much more it is each time.

    python3 bench/doubling.py [CC [TURNS [SHAPE..]]]

Called from the repository's root; CC is bin/cc by default, TURNS 3. Each figure is the least time of the processor (user and system)
of so many whole processes, in milliseconds. A shape that is linear doubles; where it grows faster, the line ends in MORE.
"""
import os
import subprocess
import sys
import tempfile

MAIN = 'int main(void) { return 0; }\n'


def each(count, text):
    """The text for 0 to count - 1; a percent sign and d stand for the number."""
    return ''.join(text.replace('%d', str(number)) for number in range(count))


def listed(count, text=None):
    """So many, joined by commas: the text with its number, or ones."""
    return ','.join('1' if text is None else f'{text}{number}' for number in range(count))


def chained(count):
    """Functions, each of which calls the one before."""
    return 'int f0(void) { return 0; }\n' + ''.join(f'int f{k}(void) {{ return f{k - 1}(); }}\n' for k in range(1, count)) + MAIN


def split(count, most, text):
    """So many in functions of at most `most`: the text says what stands in one for a number of them."""
    return ''.join(f'int f{k}(int a) {{ {text(most)} return a; }}\n' for k in range(count // most)) + MAIN


SHAPES = {
    'statics': (16000, lambda n: each(n, 'int g%d;\n') + MAIN),
    'statics that are read': (4000, lambda n: each(n, 'int g%d; int f%d(void) { return g%d; }\n') + MAIN),
    'tentative definitions of one': (16000, lambda n: 'int x;\n' * n + MAIN),
    'prototypes': (8000, lambda n: each(n, 'int f%d(int a);\n') + MAIN),
    'prototypes of one': (16000, lambda n: 'int f(int a);\n' * n + MAIN),
    'enumerators': (16000, lambda n: 'enum { ' + listed(n, 'e') + ' };\n' + MAIN),
    'tags': (8000, lambda n: each(n, 'enum t%d { a%d };\n') + MAIN),
    'cases': (10000, lambda n: split(n, 1000, lambda k: 'switch (a) { ' + each(k, 'case %d: ; ') + '}')),
    'locals': (1300, lambda n: 'int main(void) { ' + each(n, 'int a%d; ') + 'return 0; }\n'),
    'string literals': (3500, lambda n: 'void p(char s[]) { }\n' + each(n, 'void f%d(void) { p("s%d"); }\n') + MAIN),
    'one string literal': (3500, lambda n: 'void p(char s[]) { }\n' + each(n, 'void f%d(void) { p("abc"); }\n') + MAIN),
    'static initialiser': (60000, lambda n: 'int a[] = {' + listed(n) + '};\n' + MAIN),
    'automatic initialisers': (20000, lambda n: split(n, 2000, lambda k: 'int b[] = {' + listed(k) + '};')),
    'adjacent strings': (16000, lambda n: 'char s[] = ' + '"ab" ' * n + ';\n' + MAIN),
    'parameters': (1900, lambda n: 'int f(' + listed(n, 'int a') + ') { return 0; }\n' + MAIN),
    'arguments': (1900, lambda n: 'int f(' + listed(n, 'int a') + ') { return 0; }\nint main(void) { return f(' + listed(n) + '); }\n'),
    'arguments, the last a call': (1900, lambda n: 'int f(' + listed(n, 'int a') + ') { return 0; }\nint g(void) { return 0; }\n'
        'int main(void) { return f(' + listed(n - 1) + ', g()); }\n'),
    'dimensions': (25000, lambda n: 'char a' + '[1]' * n + ';\n' + MAIN),
    'macros': (8000, lambda n: each(n, '#define m%d %d\n') + MAIN),
    'conditionals': (16000, lambda n: '#if 1\n#endif\n' * n + MAIN),
    'splices': (60000, lambda n: 'int main(void) { return ' + '\\\n' * n + '0; }\n'),
    'comments': (30000, lambda n: '/* x */ ' * n + '\n' + MAIN),
    'variable arguments': (16000, lambda n: '#define v(...) __VA_ARGS__\nint a[] = { v(' + listed(n) + ') };\n' + MAIN),
    'lines named anew': (8000, lambda n: each(n, '#line 5 "f%d"\n') + MAIN),
    'functions, each calls the one before': (4000, chained),
    'functions, each calls the first': (4000, lambda n: 'int z(void) { return 0; }\n' + each(n, 'int f%d(void) { return z(); }\n') + MAIN),
    'statics of blocks': (4000, lambda n: each(n, 'void f%d(void) { static int x = 3; }\n') + MAIN),
    'blocks in one another': (8000, lambda n: split(n, 60, lambda k: '{ int b; ' * k + '}' * k)),
    'conditions in one another': (16000, lambda n: split(n, 200, lambda k: 'if (a) ' * k + ';')),
    'sums': (16000, lambda n: split(n, 120, lambda k: 'a = ' + 'a + ' * k + '1;')),
    'assertions': (8000, lambda n: '_Static_assert(1, "m");\n' * n + MAIN),
}


def took(command, turns):
    """The least time of the processor of so many runs, in milliseconds."""
    best = None
    for _ in range(turns):
        child = subprocess.Popen(command, stdin=subprocess.DEVNULL, stdout=subprocess.DEVNULL, stderr=subprocess.PIPE, text=True)
        said = child.stderr.read()
        _, status, used = os.wait4(child.pid, 0)
        child.returncode = os.waitstatus_to_exitcode(status)
        if child.returncode:
            sys.exit(f'{" ".join(command)} ended with {child.returncode}: {said[:200]}')
        spent = (used.ru_utime + used.ru_stime) * 1000
        best = spent if best is None else min(best, spent)
    return best


def main():
    if sys.argv[1:2] in (['-h'], ['--help']):
        print(__doc__.rstrip())
        return
    cc = os.path.abspath(sys.argv[1] if len(sys.argv) > 1 else 'bin/cc')
    turns = int(sys.argv[2]) if len(sys.argv) > 2 else 3
    with tempfile.TemporaryDirectory() as room:
        os.chdir(room)
        for name in sys.argv[3:] or SHAPES:
            size, source = SHAPES[name]
            times = []
            for count in (size, 2 * size, 4 * size):
                with open('main.c', 'w') as out:
                    out.write(source(count))
                times.append(took([cc, 'build', 'main.c', '-o', 'program'], turns))
            more = times[2] / times[1]
            shown = '  '.join(f'{time:8.1f}' for time in times)
            print(f'{name:38} {size:6} {shown}  {times[1] / times[0]:5.2f} {more:5.2f}{" MORE" if more > 2.6 else ""}', flush=True)


if __name__ == '__main__':
    main()
