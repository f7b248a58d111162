#!/usr/bin/env python3
"""Refuses the program each growth of its memory in turn.

    python3 tests/outside/refused/growths.py bin/cc

refusing.c, preloaded, refuses one call of malloc or realloc, or all from one on. For each of pp, build, list and interp on each
source, and for run on each file that is built, for each call that the undisturbed command makes (of a long run one in 25): the
answer is the line of 801 with status 1 (of a port that was refused memory with 126), with a beginning of what the undisturbed
command writes; or it is the undisturbed answer. A trace on standard error may have begun before that line. It needs gcc or clang for
the C file. The last line is 'N passed, M failed'."""
import os
import subprocess
import sys
import tempfile

from bytes import harness, library

RVIO = '#include <rvio.h>\n'
SOURCES = {
    'macros': '#define x 2\n#define f(a) f(x * (a))\n#define g f\n#define z z[0]\n#define t(a) a\nf(y+1) + f(f(z)) % t(t(g)(0) + t)(1);\n',
    'calls': RVIO + 'int p(int c) { rv_putbyte(c); return c; }\nint main(void) { return p(65) - p(66) + 2; }\n',
    'ten arguments': RVIO + 'void f(int a, int b, int c, int d, int e, int g, int h, int i, int j, int k) { rv_putbyte(j); rv_putbyte(k); }\n'
                     'int main(void) { f(65, 66, 67, 68, 69, 70, 71, 72, 73, 74); return 0; }\n',
    'a row too short': 'int f(int p[]) { return p[3]; }\nstatic int m[5][3];\nint main(void) { return f(m[3]); }\n',
    'deep calls': 'int f(int n) { if (n == 0) return 0; return f(n - 1); }\nint main(void) { char pad[208]; return f(3447); }\n',
}
# its traces are longer than a buffer
LOOP = RVIO + 'int p(int c) { rv_putbyte(c); return c; }\nint main(void) { int n = 0; for (int i = 0; i < 40; i++) n += p(i); return n & 7; }\n'
# programs that do not end by themselves: each has a line of its own
RUNS = {
    'a trap': 'int main(void) { return 0; }\n',
    'a budget': 'int main(void) { for (;;) ; }\n',
}


# the line of 801 with its status; and of a port that was refused memory
MEMORY = (1, b'cc: 801 out of memory\n')
PORT = (126, b'cc: port fault 801\n')


class Command:
    """One command in a folder of its own, and its answers. A traced one tells its trace on standard error."""

    def __init__(self, cc, preload, name, words, files, out=None, traced=False):
        self.cc, self.preload, self.name, self.words, self.files, self.out = cc, preload, name, words, files, out
        self.traced = traced

    def ask(self, at=0, on=False, count=False):
        with tempfile.TemporaryDirectory() as folder:
            for name, data in self.files.items():
                os.makedirs(os.path.dirname(os.path.join(folder, name)), exist_ok=True)
                with open(os.path.join(folder, name), 'wb') as file:
                    file.write(data)
            env = {'PATH': os.environ.get('PATH', ''), 'LD_PRELOAD': self.preload}
            if at:
                env['REFUSE_AT'] = str(at)
            if on:
                env['REFUSE_ON'] = '1'
            pass_fds = ()
            if count:
                read_end, write_end = os.pipe()
                env['COUNT_TO'] = str(write_end)
                pass_fds = (write_end,)
            done = subprocess.run([self.cc] + self.words, cwd=folder, env=env, stdin=subprocess.DEVNULL, capture_output=True,
                                  timeout=120, pass_fds=pass_fds)
            calls = 0
            if count:
                os.close(write_end)
                calls = int(os.read(read_end, 32))
                os.close(read_end)
            built = None
            if self.out and os.path.exists(os.path.join(folder, self.out)):
                with open(os.path.join(folder, self.out), 'rb') as file:
                    built = file.read()
        return (done.returncode, done.stdout, done.stderr, built), calls

    def judge(self, wanted, at, on):
        got, _ = self.ask(at, on)
        if got == wanted:
            return None
        status, out, said, built = got
        told = self.is_told(status, said, wanted[2])
        begun = wanted[1].startswith(out) and (built is None or (wanted[3] or b'').startswith(built))
        if told and begun:
            return None
        return f'{self.name}: growth {at}{" and those behind" if on else ""}: status {status}, {said!r}, {len(out)} bytes written'


    def is_told(self, status, said, wanted):
        """Whether the answer is the line of 801; of a trace whole lines of the undisturbed one may stand before it."""
        if not self.traced:
            return (status, said) in (MEMORY, PORT)
        begun = said.removesuffix(MEMORY[1])
        return status == MEMORY[0] and begun != said and wanted.startswith(begun) and (not begun or begun.endswith(b'\n'))


def commands(cc, preload):
    def plain(*words):
        return Command(cc, preload, *words)

    def traced(*words):
        return Command(cc, preload, *words, traced=True)

    for name, text in SOURCES.items():
        files = {'main.c': text.encode()}
        yield plain('pp ' + name, ['pp', 'main.c'], files)
        yield plain('build ' + name, ['build', 'main.c', '-o', 'out'], files, 'out')
        yield plain('list ' + name, ['list', 'main.c'], files)
        yield plain('interp ' + name, ['interp', 'main.c'], files)
        build = plain('', ['build', 'main.c', '-o', 'out'], files, 'out')
        built = build.ask()[0][3]
        if built:
            yield plain('run ' + name, ['run', 'out'], {'out': built})
    for name, text in RUNS.items():
        build = plain('', ['build', 'main.c', '-o', 'out'], {'main.c': text.encode()}, 'out')
        built = build.ask()[0][3]
        if name == 'a trap':
            built = built[:24] + bytes(4) + built[28:]
        yield plain('run ' + name, ['run', 'out', '--max', '1000'], {'out': built})
        yield plain('run of a cut file', ['run', 'out'], {'out': built[:60]})
    yield plain('interp two files', ['interp', 'main.c', 'a.h', '--max', '5'], {'main.c': b'#include "a.h"\n', 'a.h': RUNS['a budget'].encode()})
    yield plain('a missing file', ['build', 'main.c', 'a.h', '-o', 'out'], {'main.c': b'\n'}, 'out')
    yield plain('a fault', ['interp', 'main.c'], {'main.c': b'#error ' + b'long ' * 800 + b'\n'})
    yield plain('help', ['--help'], {})
    files = {'main.c': SOURCES['calls'].encode()}
    yield plain('symbols', ['symbols', 'main.c', '-o', 'out'], files, 'out')
    yield plain('frames', ['frames', 'main.c', '--sizes'], files)
    yield plain('list with labels', ['list', 'main.c', '--labels', '--abi'], files)
    yield plain('list with the sources', ['list', 'main.c', '--source'], files)
    for form in ('tokens', 'tree', 'typed', 'tac', 'flat', 'passes', 'items'):
        yield plain('show ' + form, ['show', form, 'main.c'], files)
    yield plain('show as JSON', ['show', 'typed', 'main.c', '--json'], files)
    unused = {'main.c': b'int main(void) { int unused = 3; int other; return 0; }\n'}
    wrong = {'main.c': b'int f(void) { return cuont }\nint count;\nint main(void) { return cuont; }\nint g(int a) { return a(1); }\n'}
    for words in ([], ['--json'], ['--sarif']):
        yield plain(' '.join(['check', *words]), ['check', 'main.c', *words], unused)
        yield plain(' '.join(['check of a refused program', *words]), ['check', 'main.c', *words], wrong)
        yield plain(' '.join(['explain', *words]), ['explain', 'build', 'main.c', *words], wrong)
    outside = {'main.c': b'int a[2];\nint at(int i) { return a[i]; }\nint main(void) { return at(1) + at(2); }\n'}
    told = {'main.c': RUNS['a trap'].encode()}
    for words in ([], ['--json'], ['--sarif']):
        yield plain(' '.join(['explain interp', *words]), ['explain', 'interp', 'main.c', *words], outside)
    for words in ([], ['--json'], ['--sarif']):
        yield plain(' '.join(['explain interp of what is defined', *words]), ['explain', 'interp', 'main.c', *words], told)
    halved = {'main.c': b'int main(void) { int n = 100; int i = 0; while (n > 0) { n = n / 2; i = i + 1; if (i > 40) n = 0; } return i; }\n'}
    unset = {'main.c': b'int main(void) { int a[2]; return a[1] + 1 / a[0]; }\n'}
    for words in ([], ['--json'], ['--sarif']):
        yield plain(' '.join(['verify what is defined', *words]), ['verify', 'main.c', *words], halved)
        yield plain(' '.join(['verify what is not shown', *words]), ['verify', 'main.c', *words], unset)
    pasted = {'main.c': b'#include "a.h"\n#define F(a, b) a ## b\nint x = F(+, ;);\nint main(void) { return x; }\n', 'a.h': b'#define A 1\n'}
    for words in ([], ['--json'], ['--sarif']):
        yield plain(' '.join(['explain pp', *words]), ['explain', 'pp', 'main.c', 'a.h', *words], pasted)
        yield plain(' '.join(['explain pp of what is right', *words]), ['explain', 'pp', 'main.c', *words], files)
    yield plain('pp with lines', ['pp', 'main.c', '--lines'], files)
    looped = {'main.c': LOOP.encode()}
    yield traced('interp told on standard error', ['interp', 'main.c', '--trace'], looped)
    yield traced('interp told on standard error as JSON', ['interp', 'main.c', '--trace', '--json'], looped)
    yield plain('interp told', ['interp', 'main.c', '--trace-file', 'out'], files, 'out')
    yield plain('interp told as JSON', ['interp', 'main.c', '--trace-file', 'out', '--json'], files, 'out')
    two = {'main.c': b'#include "a.h"\nint main(void) { return N; }\n', 'inc/a.h': b'#define A 1\n'}
    yield plain('includes', ['build', '-I', 'inc', '-DN=A', 'main.c', '-o', 'out', '-MF', 'd'], two, 'out')
    yield plain('the files of a program', ['build', '-I', 'inc', '-DN=A', 'main.c', '--list-files'], two)
    built = plain('', ['build', 'main.c', '-o', 'out'], files, 'out').ask()[0][3]
    yield plain('run told', ['run', 'out', '--trace-file', 'told'], {'out': built}, 'told')
    looping = plain('', ['build', 'main.c', '-o', 'out'], looped, 'out').ask()[0][3]
    yield traced('run told on standard error', ['run', 'out', '--trace'], {'out': looping})
    yield traced('run told on standard error with names', ['run', 'out', '--trace', '--map', 'main.c'], {'out': looping, **looped})
    yield plain('run shown', ['run', 'out', '--map', 'main.c', '--at', '3'], {'out': built, **files})
    yield plain('size', ['size', 'out'], {'out': built})
    yield plain('image', ['image', 'out', '--ihex'], {'out': built})


def numbers(calls):
    """The growths that are refused: each of the first 400, and of those of a long run one in 25."""
    return [at for at in range(1, calls + 1) if at <= 400 or at % 25 == 0]


def main():
    cc, verdict = os.path.abspath(sys.argv[1]), harness.Verdict()
    with tempfile.TemporaryDirectory() as folder:
        preload = library(folder)
        if not preload:
            verdict.skip(1, 'no compiler for refusing.c')
            return verdict.end()
        for command in commands(cc, preload):
            wanted, calls = command.ask(count=True)
            asked = [(at, on) for on in (False, True) for at in numbers(calls)]
            wrong = [line for line in harness.side_by_side(lambda one: command.judge(wanted, *one), asked) if line]
            print(f'{command.name}: {calls} growths, {len(wrong)} wrong answers of {len(asked)}')
            verdict.holds(f'{command.name}: {calls} growths: {"; ".join(wrong[:5])}', not wrong and calls > 0)
    return verdict.end()


if __name__ == '__main__':
    sys.exit(main())
