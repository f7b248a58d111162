#!/usr/bin/env python3
"""What `CC verify` says, held against what programs do: `check.py CC`.

Each source that the tests keep, and each of SOME made by a generator with a fixed seed, is verified and interpreted. Where the interpreter meets an
undefined act, the place is among those that verify lists, or verify goes no further. Programs that are defined, and have to be found so, and such
with an act at a known place, stand here. The last line counts what passed and failed.
"""
import concurrent.futures
import os
import random
import re
import subprocess
import sys
import tempfile

HERE = os.path.dirname(os.path.abspath(__file__))
sys.path.insert(0, os.path.join(HERE, '..', 'library'))
import sources  # noqa: E402
from defined import DEFINED, EDITS  # noqa: E402

CC = os.path.abspath(sys.argv[1])
SOME = int(os.environ.get('SOME', '300'))
MOST = '3000000'
# Enough for each program of the documents and of bench.
LONG = '400000000'
passed = failed = 0

# The line of an act that some input meets.
UNDEFINED = {
    'a table whose last element is left out': ('static int t[3] = { 1, 2 };\nint main(void) {\n  return 1 / t[2]; }', 3),
    'rows of which one is short': ('static int m[2][2] = { { 1, 2 }, { 3 } };\nint main(void) {\n  return 1 / m[1][1]; }', 3),
    'overflow': ('int rv_getbyte(void);\nint main(void) { int s = 2147483600;\n  s += rv_getbyte();\n  return s; }', 3),
    'division': ('int rv_getbyte(void);\nint main(void) {\n  return 10 / (rv_getbyte() - 65);\n}', 3),
    'unset': ('int main(void) { int x;\n  return x; }', 2),
    'subscript': ('int rv_getbyte(void);\nstatic int a[3];\nint main(void) {\n  return a[rv_getbyte() & 3]; }', 4),
    'shift': ('int rv_getbyte(void);\nint main(void) {\n  return 1 << (rv_getbyte() & 63); }', 3),
    'in a loop': ('int main(void) { int n = 5;\n  while (1) {\n    n = 10 / (n - 1) - 1; }\n}', 3),
    'remainder of a negative number': ('int rv_getbyte(void);\nstatic int a[3];\nint main(void) { int c = rv_getbyte();\n  return a[c % 3]; }', 4),
    'a bound that is one too large': ('int rv_getbyte(void);\nstatic int a[3];\nint main(void) { int c = rv_getbyte(); if (c >= 0 && c <= 3)\n  return a[c]; return 0; }', 4),
    'remainder that is negative': ('int rv_getbyte(void);\nstatic int a[3];\nint main(void) { int c = rv_getbyte() - 5;\n  return a[c % 3]; }', 4),
    'quotient that is negative': ('int rv_getbyte(void);\nstatic int a[4];\nint main(void) { int c = rv_getbyte() & 7;\n  return a[c / -2]; }', 4),
    'remainder of the least number': ('int rv_getbyte(void);\nint main(void) { int n = -2147483647 - (rv_getbyte() == 65);\n  return n % -1; }', 3),
    'a mask that is one too large': ('int rv_getbyte(void);\nstatic int a[7];\nint main(void) {\n  return a[rv_getbyte() & 7]; }', 4),
    'a shift out of range': ('int rv_getbyte(void);\nint main(void) {\n  return (rv_getbyte() & 255) << 24; }', 3),
    'a product out of range': ('int rv_getbyte(void);\nint main(void) { int c = rv_getbyte() * -9000;\n  return c * 1000; }', 3),
    'more than there are': ('int rv_getbyte(void);\nstatic int a[4];\nint main(void) { int x = rv_getbyte() & 7, y = 5; if (x < y)\n  return a[x]; return 0; }', 4),
    'a static that a call writes': ('int g = 3;\nvoid f(void) { g = 0; }\nint main(void) { f();\n  return 1 / g; }', 4),
    'a static that a call of a call writes': ('int g = 3;\nvoid h(void) { g = 0; }\nvoid f(void) { h(); }\nint main(void) { f();\n  return 1 / g; }', 5),
    'an argument': ('int f(int n) {\n  return 10 / n; }\nint main(void) { return f(1) + f(0); }', 2),
    'an element that a call reads': ('int f(int a[], int n) {\n  return a[n]; }\nint main(void) { int a[2] = { 1, 2 }; return f(a, 2); }', 2),
    'an array that a call writes': ('static int a[2] = { 1, 1 };\nvoid f(int b[]) { b[0] = 0; }\nint main(void) { f(a);\n  return 1 / a[0]; }', 4),
    'an array by two names': ('static int a[1] = { 1 };\nint f(int b[]) { a[0] = 0;\n  return 1 / b[0]; }\nint main(void) { return f(a); }', 3),
    'the other of two arrays': ('static int a[1], b[1] = { 1 };\nint f(int x[]) {\n  return 1 / x[0]; }\nint main(void) { return f(b) + f(a); }', 3),
    'arrays in another order': ('static int a[1], b[1] = { 1 };\nint f(int x[], int y[]) {\n  return 1 / x[0] + y[0]; }\nint main(void) { return f(b, a) + f(a, b); }', 3),
    'an array that is passed on': ('static int a[1], b[1] = { 1 };\nint g(int y[]) {\n  return 1 / y[0]; }\nint f(int x[]) { return g(x); }\nint main(void) { return f(b) + f(a); }', 3),
    'the end of a row': ('int f(int r[], int n) {\n  return r[n]; }\nint main(void) { int a[2][3] = { { 1, 2, 3 }, { 4, 5, 6 } }; return f(a[0], 3); }', 2),
    'a row that a call writes': ('static int a[2][2] = { { 1, 1 }, { 1, 1 } };\nvoid f(int r[]) { r[1] = 0; }\nint main(void) { f(a[1]);\n  return 1 / a[1][1]; }', 4),
    'an element without a value that is passed': ('int f(int x[]) {\n  return x[0]; }\nint main(void) { int a[2]; return f(a); }', 2),
    'a call that gives no value': ('int rv_getbyte(void);\nint f(int n) { if (n > 0) return 1; }\nint main(void) {\n  return f(rv_getbyte()); }', 4),
    'one element of an array': ('int main(void) { int a[3]; a[0] = 1;\n  return a[1]; }', 2),
    'an element that a loop left out': ('int main(void) { int a[3]; for (int i = 0; i < 2; i++) a[i] = i;\n  return a[2]; }', 2),
    'the element between two': ('int main(void) { int a[3]; a[0] = 1; a[2] = 5;\n  return a[1]; }', 2),
    'an element that may have changed': ('int rv_getbyte(void);\nint main(void) { int a[2] = { 5, 6 }; a[rv_getbyte() & 1] = 0;\n  return 10 / a[1]; }', 3),
    'an element that one way changes': ('int rv_getbyte(void);\nint main(void) { int a[2] = { 1, 1 }; if (rv_getbyte() < 0) a[0] = 0;\n  return 20 / a[0]; }', 3),
    'an element that a call changes': ('static int a[2] = { 1, 1 };\nvoid f(int b[]) { b[1] = 0; }\nint main(void) { f(a);\n  return 1 / a[1]; }', 4),
    'an element by two names': ('static int a[2] = { 1, 1 };\nint f(int b[]) { a[1] = 0;\n  return 1 / b[1]; }\nint main(void) { return f(a); }', 3),
    'an array that begins again': ('int main(void) { for (int i = 0; i < 2; i++) { int a[2]; if (i == 0) a[0] = 1;\n  if (i == 1) return a[0]; } return 0; }', 2),
    'a text without its end': ('int main(void) { char s[3] = "abc"; int i = 0;\n  while (s[i] != 0) i++;\n  return i; }', 2),
    'a list in its order': ('int main(void) { int x = 1, a[2] = { x = 0, x };\n  return 1 / a[1]; }', 2),
    'an element that its own list reads': ('int main(void) { int a[2] = { 1,\n  a[1] };\n  return a[0]; }', 2),
    'an element that many turns change': ('int main(void) { int a[2] = { 1, 2 }; for (unsigned i = 0; i < 100000; i++) a[0] = 0;\n  return 1 / a[0]; }', 2),
    'the zero behind a static list': ('static int a[3] = { 2 };\nint main(void) {\n  return 10 / a[2]; }', 3),
    'the rest of a list': ('int rv_getbyte(void);\nint main(void) { int a[4] = { 1, 2 };\n  return 10 / a[rv_getbyte() & 3]; }', 3),
    'the end of a text': ('int main(void) { char s[4] = "abc";\n  return 10 / s[3]; }', 2),
    'a case that falls through': ('int rv_getbyte(void);\nint main(void) { int z = 1; switch (rv_getbyte()) { case 65: z = 0; default:\n  return 1 / z; } }', 3),
    'no case': ('int rv_getbyte(void);\nint main(void) { int z = 0; switch (rv_getbyte()) { case 65: z = 1; }\n  return 1 / z; }', 3),
    'a first value that a jump passes over': ('int rv_getbyte(void);\nint main(void) { switch (rv_getbyte()) { int x = 5; case 65: default:\n  return x; } }', 3),
    'a loop that counts on': ('int rv_getbyte(void);\nint main(void) { unsigned n = 0; while (rv_getbyte() >= 0) n++;\n  return 10 / (n - 5); }', 3),
    'the last of ten turns': ('int main(void) { int s = 0; for (int i = 0; i < 10; i++)\n  s += 9 / (9 - i);\n  return s; }', 2),
    'behind ten turns': ('int main(void) { int s = 0; for (int i = 0; i < 10; i++) s += i;\n  return 1 / (s - 45); }', 2),
    'behind a break in a turn': ('int main(void) { int i; for (i = 0; i < 10; i++) if (i == 6) break;\n  return 1 / (i - 6); }', 2),
    'a return in one of the turns': ('int f(int n) { for (int i = 0; i < 10; i++) if (i > n) return i; return 1; }\nint main(void) {\n  return 1 / (f(4) - 5); }', 3),
    'the last turn of a do': ('int main(void) { int n = 4, s = 0; do s += n; while (--n > 0);\n  return 1 / (s - 10); }', 2),
    'behind many turns': ('int main(void) { unsigned n = 0; for (int i = 0; i < 100000; i++) n++;\n  return 1 / (n - 100000); }', 2),
    'a comparison that is false': ('int main(void) { int n = 3;\n  return 10 / (n * n > 9); }', 2),
    'a comparison that is not decided': ('int rv_getbyte(void);\nint main(void) { int n = rv_getbyte();\n  return 10 / (n + n > 5); }', 3),
    'an array of one element that may have no value': ('int rv_getbyte(void);\nvoid f(int n, int a[]) { if (n > 0) a[0] = n; }\nint main(void) { int a[1]; f(rv_getbyte(), a);\n  return a[0]; }', 4),
    'one element of a row': ('int main(void) { int m[1][2]; m[0][0] = 3;\n  return m[0][1]; }', 2),
    'least number': ('int rv_getbyte(void);\nint main(void) { int n = -2147483647 - (rv_getbyte() == 65);\n  return n / -1; }', 3),
}
# An act behind what is not followed: never said to be defined.
BEHIND = {
    'recursion': 'int f(int n) { return n < 1 ? 1 / n : f(n - 1); }\nint main(void) { return f(3); }',
    'call in a list': 'int f(void) { return 0; }\nint main(void) { int a[2] = { f(), f() }; return 1 / a[0]; }',
}


# The calls from main whose frames are the bound of the stack: by hand, of calls in each place where one may stand.
DEEPEST = {
    'the greatest': ('void f(void) { }\nvoid g(void) { int big[100]; big[0] = 1; }\nint main(void) { f(); g(); f(); return 0; }', ['main', 'g']),
    'a condition': ('int f(void) { return 1; }\nint main(void) { if (f()) return 1; return 0; }', ['main', 'f']),
    'an initialiser': ('int f(void) { return 1; }\nint main(void) { int x = f(); return x; }', ['main', 'f']),
    'the third part of a for': ('void f(void) { }\nint main(void) { for (int i = 0; i < 1; i++, f()) ; return 0; }', ['main', 'f']),
    'an argument of a built-in function': ('void rv_putbyte(int c);\nint f(void) { return 65; }\nint main(void) { rv_putbyte(f()); return 0; }', ['main', 'f']),
    'a call of a call': ('int h(int n) { return n; }\nint g(int n) { return h(n); }\nint f(void) { return 2; }\nint main(void) { return f() + g(3); }', ['main', 'g', 'h']),
    'what no run comes to': ('int f(void) { return 1; }\nint main(void) { return 0 && f(); }', ['main', 'f']),
    'a recursion that main does not reach': ('int f(int n) { return f(n); }\nint main(void) { return 0; }', ['main']),
}
# How functions call one another without end.
RECURSIONS = {
    'itself': ('int f(int n) { return n < 1 ? 0 : f(n - 1); }\nint main(void) { return f(3); }', 'f calls itself'),
    'each other': ('int g(int n);\nint f(int n) { return n < 1 ? 0 : g(n - 1); }\nint g(int n) { return f(n); }\nint main(void) { return f(3); }', 'f calls g, which calls f'),
    'main': ('int main(void) { return main(); }', 'main calls itself'),
}


def frames(text):
    """The bytes of the frame of each function, as `zkc frames` has it."""
    with tempfile.TemporaryDirectory() as work:
        with open(os.path.join(work, 'a.c'), 'w') as file:
            file.write(text)
        lines = [line.split() for line in cc(work, 'frames', 'a.c')[1].split('\n')[1:]]
    return {words[0]: int(words[1]) for words in lines if len(words) > 2 and words[2].isdigit()}


def taken(work):
    """How many bytes of stack a run of the file `a` takes, by the stack pointers of its trace."""
    told = re.findall(r'x2=([0-9A-F]{8})', cc(work, 'run', 'a', '--trace')[2])
    return 0x80000000 - min(int(address, 16) for address in told)


def chain(count):
    """So many functions, each of which calls the next twice."""
    return 'int f0(void) { return 1; }\n' + ''.join('int f%d(void) { return f%d() & f%d(); }\n' % (n, n - 1, n - 1) for n in range(1, count)) + 'int main(void) { return f%d(); }' % (count - 1)


def stacks():
    for name, (text, way) in DEEPEST.items():
        most = sum(frames(text + '\n')[function] for function in way)
        for stack, wanted in ((1 << 20, 'stack at most %d of 1048576 bytes' % most), (4096, 'stack at most %d of 4096 bytes' % most)):
            with tempfile.TemporaryDirectory() as work:
                with open(os.path.join(work, 'a.c'), 'w') as file:
                    file.write(text + '\n')
                said = cc(work, 'verify', 'a.c', '--stack', str(stack))
                runs = cc(work, 'build', 'a.c', '-o', 'a', '--stack', str(stack))[0] == 0 and taken(work)
            check('stack: %s, of %d' % (name, stack), said[1].endswith(wanted + '\n') and said[2] == '', said)
            check('taken: %s, of %d' % (name, stack), runs == (most if name != 'what no run comes to' else 16), runs, most)
    for name, (text, told) in RECURSIONS.items():
        status, out, err = verified([('a.c', text.encode() + b'\n')])
        check('recursion: ' + name, (status, err) == (3, '') and out.split('\n')[-2].endswith('the stack may not suffice: ' + told), status, out, err)
    text = chain(3000) + '\n'
    status, out, err = verified([('a.c', text.encode())])
    most = sum(frames(text).values())
    check('a chain of 3,000 functions', err == '' and ('stack at most %d of' % most in out if most <= 1 << 20 else status == 3 and 'the stack may not suffice: %d of' % most in out), status, out[-300:], err)


def nest(depth):
    return 'int main(void) { unsigned s = 0; %s s++; return s & 1; }' % ' '.join('for (int i%d = 0; i%d < 2; i%d++)' % (n, n, n) for n in range(depth))


CALCULATIONS = ('', '7', '1+2*3', '(1+2)*3-4/2', '2*(3-(4+5))*2', '100/7/2', '10-20', '7-3-2', '(10-20)/3', '12*(3)+1', '8/0+1', '((((5))))-6')
# A program for gcc; and two of bench whose subscripts grow from call to call, or come out of data, which the analysis does not bound.
NOT_SHOWN = ('library.c', 'filter.c', 'machine.c')
# Programs that are written anew in examples/verify, and lines of input for both.
ANEW = {
    'LANGUAGE/calculator.c': CALCULATIONS,
    'examples/console.c': ('', 'quit 7', 'set 3 5\nadd 3 6\nget 3\nsum\necho hello  you\ncount\nhelp\nfoo\nset 11 2\nset 1\nget\nquit', 'add 0 4294967295\nadd 0 2\nget 0\n\nquitx\nquit 300'),
}


def documented():
    """The ten programs of docs/LANGUAGE.md, the kernels of bench and the examples: each as (name, its files)."""
    root = os.path.join(HERE, '..', '..', '..')
    with open(os.path.join(root, 'docs', 'LANGUAGE.md'), encoding='utf-8') as file:
        text = file.read()
    files = dict(re.findall(r'\*\*([a-z]+\.[ch])\*\*\n\n```c\n(.*?)```', text[text.index('## Ten programs'):], re.S))
    for name, source in files.items():
        if name.endswith('.c'):
            used = [(other, files[other].encode()) for other in files if '"%s"' % other in source]
            yield 'LANGUAGE/' + name, [(name, source.encode())] + used
    for place, folder in (('bench/', 'bench/kernels'), ('examples/', 'examples')):
        for name in sorted(os.listdir(os.path.join(root, folder))):
            if name.endswith('.c') and name not in NOT_SHOWN:
                with open(os.path.join(root, folder, name), 'rb') as file:
                    yield place + name, [(name, file.read())]


def edited(name, source):
    """The source after the edits that docs/VERIFY.md shows, each of one place."""
    for old, new in EDITS.get(name, []):
        assert source.count(old) == 1, (name, old)
        source = source.replace(old, new)
    return source


def shown(text):
    """The lines of an edit, without what leads and ends them."""
    return [line.strip() for line in text.split('\n') if line.strip() not in ('', '{', '}')]


def anew():
    """What is written anew does what the program of the documents does."""
    root = os.path.join(HERE, '..', '..', '..')
    for name, files in documented():
        if name in ANEW:
            other = name.split('/')[1].replace('.c', '_shown.c')
            with open(os.path.join(root, 'examples', 'verify', other), 'rb') as file:
                files2 = [(files[0][0], file.read())]
            for line in ANEW[name]:
                check('anew: %s, %r' % (name, line), interpreted(files, line.encode() + b'\n') == interpreted(files2, line.encode() + b'\n'), line)


def documents():
    """Each program of the documents and of bench is defined on every input as it stands, or after its edit, which stands in VERIFY."""
    root = os.path.join(HERE, '..', '..', '..')
    with open(os.path.join(root, 'docs', 'VERIFY.md'), encoding='utf-8') as file:
        page = file.read()
    as_they_stand = []
    for name, files in documented():
        status, out, err = verified(files)
        if name not in EDITS:
            if name not in ANEW:
                check('defined as it stands: ' + name, status == 0 and err == '', status, out, err)
                as_they_stand.append(name)
            continue
        check('an edit that is needed: ' + name, status == 3 and err == '', status, out, err)
        first = edited(name, files[0][1].decode()).encode()
        status, out, err = verified([(files[0][0], first)] + files[1:])
        check('defined after its edit: ' + name, status == 0 and err == '', status, out, err)
        for given in (b'', b'12 7\n', b'ab c'):
            both = [interpreted(all_files, given, LONG) for all_files in (files, [(files[0][0], first)] + files[1:])]
            check('the same after its edit: %s, %r' % (name, given), both[0] == both[1] and both[0][0] < 123, both)
        check('the edit is shown: ' + name, all(line in page for _, new in EDITS[name] for line in shown(new)))
    for name in sorted(os.listdir(os.path.join(root, 'examples', 'verify'))):
        if name.endswith('_shown.c'):
            with open(os.path.join(root, 'examples', 'verify', name), 'rb') as file:
                status, out, err = verified([(name, file.read())])
            check('defined: ' + name, status == 0 and err == '', status, out, err)
    anew()
    print('%d of these programs are defined as they stand: %s' % (len(as_they_stand), ', '.join(as_they_stand)))


def check(name, holds, *more):
    global passed, failed
    if holds:
        passed += 1
    else:
        failed += 1
        print('FAIL', name, *more)


def cc(work, *words, given=b''):
    done = subprocess.run([CC, *words], cwd=work, input=given, capture_output=True, timeout=300)
    return done.returncode, done.stdout.decode('utf-8', 'replace'), done.stderr.decode('utf-8', 'replace')


def verified(files):
    with tempfile.TemporaryDirectory() as work:
        for name, text in files:
            with open(os.path.join(work, name), 'wb') as file:
                file.write(text)
        return cc(work, 'verify', *[name for name, _ in files])


def interpreted(files, given, most=MOST):
    with tempfile.TemporaryDirectory() as work:
        for name, text in files:
            with open(os.path.join(work, name), 'wb') as file:
                file.write(text)
        return cc(work, 'interp', *[name for name, _ in files], '--max', most, given=given)


def is_sound(files, given):
    """Whether what verify says is what this run shows; and what was said."""
    status, out, err = verified(files)
    if status == 1:
        return err != '' and out == '', (status, out, err)
    run, _, said = interpreted(files, given)
    act = re.search(r'^(.*):(\d+): undefined U(\d)$', said, re.M)
    if run != 123 or not act:
        return status in (0, 3) and err == '' and ('defined on every input' in out or status == 3), (status, out, err)
    listed = re.findall(r'^(.*?):(\d+)(?::\d+)?: may be undefined', out, re.M)
    return status == 3 and ('not followed' in out or (act[1], act[2]) in listed), (status, out, said)


def written():
    for name, text in DEFINED.items():
        status, out, err = verified([('a.c', text.encode() + b'\n')])
        check('defined: ' + name, status == 0 and re.fullmatch(r'a\.c: defined on every input; stack at most \d+ of 1048576 bytes\n', out) is not None and err == '', status, out, err)
    for name, (text, line) in UNDEFINED.items():
        status, out, err = verified([('a.c', text.encode() + b'\n')])
        check('undefined: ' + name, status == 3 and re.search(r'^a\.c:%d(:\d+)?: may be undefined U\d' % line, out, re.M) is not None and err == '', status, out, err)
    for name, text in BEHIND.items():
        status, out, err = verified([('a.c', text.encode() + b'\n')])
        check('behind: ' + name, status == 3 and err == '' and 'defined on every input' not in out, status, out, err)
    for depth in (3, 8, 60):
        status, out, err = verified([('a.c', nest(depth).encode() + b'\n')])
        check('a nest of %d loops' % depth, err == '' and status == 0 and out.startswith('a.c: defined on every input; stack at most ') or depth == 60 and status == 3 and 'not followed' in out, status, out, err)
    many = ''.join('static char a%d[%d];\n' % (n, n) for n in range(1, 41)) + 'int rv_getbyte(void);\nint main(void) { unsigned n = 0; while (rv_getbyte() >= 0) n++; return n & 1; }\n'
    check('arrays of forty lengths', verified([('a.c', many.encode())])[0] == 0)
    check('a fault', verified([('a.c', b'int main(void) { return x; }\n')])[0::2] == (1, 'a.c:1: 528 undeclared name\n'))


def built(words, text):
    """The status, what was said, and the file that was written, if any."""
    with tempfile.TemporaryDirectory() as work:
        with open(os.path.join(work, 'a.c'), 'w') as file:
            file.write(text + '\n')
        status, out, err = cc(work, *words)
        try:
            with open(os.path.join(work, 'a'), 'rb') as file:
                return status, out, err, file.read(), os.access(os.path.join(work, 'a'), os.X_OK)
        except OSError:
            return status, out, err, None, False


def efforts():
    """With few steps the analysis ends early and says so; with as many as it takes it says what it says without a bound."""
    text = 'int main(void) { unsigned s = 0; for (int i = 0; i < 200; i++) s += i; return s & 1; }'
    for effort, wanted in (('1', 3), ('15000000', 0), ('9223372036854775807', 0)):
        status, out, err, _, _ = built(['verify', 'a.c', '--effort', effort], text)
        check('effort: ' + effort, (status, err) == (wanted, '') and ('not followed' in out) == (wanted == 3), status, out, err)
    for effort in ('0', '-1', 'x', '9223372036854775808'):
        check('no effort: ' + effort, built(['verify', 'a.c', '--effort', effort], text)[0] == 2)


def builds():
    """With -o the program that is shown is built, the file is that of build, and no other program is built."""
    for name, text in DEFINED.items():
        for stack in ('1048576', '65536'):
            status, out, err, file, can_run = built(['verify', 'a.c', '-o', 'a', '--stack', stack], text)
            check('built: %s, %s' % (name, stack), status == 0 and err == '' and can_run and file == built(['build', 'a.c', '-o', 'a', '--stack', stack], text)[3], status, out, err)
    for name, (text, _) in UNDEFINED.items():
        status, out, err, file, _ = built(['verify', 'a.c', '-o', 'a'], text)
        check('not built: ' + name, (status, err, file) == (3, '', None), status, out, err)
    for name, (text, _) in RECURSIONS.items():
        check('not built: ' + name, built(['verify', 'a.c', '-o', 'a'], text)[0::3] == (3, None))
    check('a fault is not built', built(['verify', 'a.c', '-o', 'a'], 'int main(void) { return x; }')[0::3] == (1, None))
    check('not over the source', built(['verify', 'a.c', '-o', 'a.c'], 'int main(void) { return 0; }')[0:3:2] == (2, 'error: OUT is one of the files that are read\n'))
    check('not to the stream of the verdict', built(['verify', 'a.c', '-o', '-'], 'int main(void) { return 0; }')[0:3:2] == (2, 'error: the verdict goes to standard output: -o OUT wants a path\n'))
    check('no folder', built(['verify', 'a.c', '-o', 'no/a'], 'int main(void) { return 0; }')[0] == 1)


class Made:
    """A program of scalars, arrays, loops and calls, which may do something undefined."""

    def __init__(self, seed):
        self.random = random.Random(seed)

    def number(self, depth):
        choose = self.random.random()
        if depth == 0 or choose < 0.25:
            return self.random.choice(['x', 'y', 'g', 'a[%s]' % self.random.choice(['x & 7', '3', 'y', 'x % 8', 'i']), str(self.random.choice([0, 1, 2, 7, 31, 255, 65536, 2147483647]))])
        a, b = self.number(depth - 1), self.number(depth - 1)
        op = self.random.choice(['+', '-', '*', '/', '%', '<<', '>>', '&', '|', '^', '<', '==', '&&', '||', ','])
        if choose < 0.85:
            return '(%s %s %s)' % (a, op, b)
        return self.random.choice(['(-%s)', '(~%s)', '(!%s)', '((unsigned char)%s)', '((unsigned)%s)', 'f(%s)']) % a if choose < 0.97 else '(%s ? %s : x)' % (a, b)

    def condition(self):
        return '%s %s %s' % (self.random.choice('xyg'), self.random.choice(['<', '<=', '>', '>=', '==', '!=']), self.random.choice(['x', 'y', '0', '5', '100', '-1']))

    def statement(self, depth):
        choose = self.random.random()
        if choose < 0.4 or depth == 0:
            return '%s %s %s;' % (self.random.choice(['x', 'y', 'g', 'a[i]', 'a[x & 7]']), self.random.choice(['=', '+=', '-=', '=', '=']), self.number(2))
        if choose < 0.6:
            return 'if (%s) { %s } else { %s }' % (self.condition(), self.statements(depth - 1), self.statements(depth - 1))
        if choose < 0.75:
            return 'for (i = 0; i < %d; i++) { %s }' % (self.random.choice([3, 8, 9]), self.statements(depth - 1))
        if choose < 0.85:
            return 'while (%s) { x = x - 1; %s if (y++ > 20) break; }' % (self.condition(), self.statements(depth - 1))
        return self.random.choice(['rv_putbyte(%s);', 'x = rv_getbyte() + 0 * (%s);', 'if (x > %s) return x & 1;']) % self.number(1)

    def statements(self, depth):
        return ' '.join(self.statement(depth) for _ in range(self.random.randint(1, 3)))

    def text(self):
        first = self.random.choice(['int y;', 'int y = 2;', 'int y = 0;'])
        return ('int rv_getbyte(void);\nvoid rv_putbyte(int c);\nstatic int g = 1;\nint f(int n) { if (n > 3) g = n; return n %s 2; }\n'
                'int main(void)\n{\n    int x = rv_getbyte(), i = 0, a[8] = { 1, 2, 3 }; %s\n    %s\n    return 0;\n}\n'
                % (self.random.choice('+*/'), first, '\n    '.join(self.statement(2) for _ in range(self.random.randint(3, 7)))))


def sound():
    kept = list(sources.all_of_them())
    made = [('made %d' % seed, [('m.c', Made(seed).text().encode())], bytes(random.Random(seed).randbytes(40))) for seed in range(SOME)]
    with concurrent.futures.ThreadPoolExecutor(os.cpu_count()) as pool:
        for (name, _, _), (holds, seen) in zip(kept + made, pool.map(lambda one: is_sound(one[1], one[2]), kept + made)):
            check('sound: ' + name, holds, seen)


written()
efforts()
builds()
documents()
stacks()
sound()
print('%d passed, %d failed' % (passed, failed))
sys.exit(failed != 0)
