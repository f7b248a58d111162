"""Many sources with their answers, for a program that tells the faults of each source of its input.

    python3 tests/outside/constraints/many.py FOLDER

writes FOLDER/stdin, the sources, each followed by a line `@`, and FOLDER/stdout, for each `ok` or `main.c:LINE: CODE TEXT`, then
`@`: those of rows/ and accepted/, and thousands that are made here: two and three declarations of one name, operators over
operands of every kind, initialisers over types, arguments over parameters, parameters, specifiers, random statements. Their answers are
those of model.py; a source with more than one answer is left out.

    python3 tests/outside/constraints/many.py --gcc [COUNT]

asks gcc too whether it accepts COUNT of the sources that are made here (all, if none is given), and tells those on which it and
the model differ for a reason that README.md does not give.
"""
import itertools
import pathlib
import random
import re
import subprocess
import sys

import model

HERE = pathlib.Path(__file__).parent
GCC = 'gcc -m32 -std=c11 -pedantic-errors -funsigned-char -fsyntax-only -x c -'.split()
MAIN = 'int main(void) { return 0; }\n'


def declarations(rng):
    """One name, declared twice in all ways, and three times in some."""
    objects = ['int x', 'const int x', 'unsigned x', 'int x[]', 'int x[2]', 'int x[3]', 'const int x[2]', 'int x[][2]', 'int x[2][2]',
               'int x[3][2]', 'int x = 1', 'int x[] = {1}', 'int x[] = {1, 2, 3}', 'int x[2] = {1}', 'int x[][2] = {{1}}']
    functions = ['int x(void)', 'int x(int a)', 'int x(int a[])', 'int x(int a[3])', 'int x(const int a[])', 'int x(const int a)',
                 'void x(void)', 'int x(void) { return 0; }', 'int x(int a) { return a; }', 'enum { x } y']
    forms = [c + d + ('' if 'return' in d else ';') for c in ('', 'static ', 'extern ') for d in objects + functions]
    yield from (f'{a}\n{b}\n{MAIN}' for a in forms for b in forms)
    for _ in range(900):
        yield '\n'.join(rng.choice(forms) for _ in range(3)) + '\n' + MAIN


def operators(rng):
    """Operands of every kind, in every place for one, and under operators with each other."""
    before = ('enum { E = 2 };\nvoid v(void) { }\nint f(void) { return 1; }\nconst int c = 1;\nint a[3], m[2][2];\n'
              'const int k[2] = {1, 2};\nint g(int p[], const int q[], int r[][2], int n, const int z) {\n')
    behind = '\nreturn 0; }\n' + MAIN
    operands = ['n', 'c', 'z', '1', 'a', 'm', 'm[1]', 'a[1]', 'k[0]', 'k', '"ab"', '"ab"[0]', 'f', 'f()', 'v()', '(void)0', 'p', 'q', 'r',
                'r[1]', 'q[1]', 'p[0]', '(n, n)', '(1 ? n : n)', 'n++', 'E', '(n)', '(a)', '(char)n', '-n', 'sizeof n']
    places = ['+%;', '-%;', '~%;', '!%;', 'sizeof %;', '(int)%;', '(void)%;', '(int[2])%;', '%;', '++%;', '%--;', '% = 1;', '% += 1;',
              'n = %;', 'n *= %;', 'if (%) ;', 'while (%) ;', 'do ; while (%);', 'for (%; ; ) ;', 'for (; %; ) ;', 'for (; ; %) ;',
              'switch (%) { default: ; }', 'return %;', 'n = % ? 1 : 2;', 'n, %;', '%, n;', 'a[%] = 1;', '(%)[0];', 'int y = %;',
              'int y[2] = {%};', 'int y[2] = %;', 'static int y = %;', 'g(%, a, m, 1, 1);', 'g(a, %, m, 1, 1);', 'g(a, a, %, 1, 1);',
              'g(a, a, m, %, 1);', 'enum { Z = % };', 'switch (n) { case %: ; }', 'int y[%];', '_Static_assert(%, "m");']
    signs = ['+', '-', '*', '/', '%', '<<', '>>', '<', '==', '&', '|', '&&', '||', ',', '=', '+=', '? n :']
    yield from (before + p.replace('%', o) + behind for o in operands for p in places)
    for o, p in itertools.product(operands, operands):
        for sign in rng.sample(signs, 3):
            yield f'{before}{o} {sign} {p};{behind}'


def initialisers(rng):
    """Types and initialisers, at file scope, in a block, and static in a block."""
    types = ['int y', 'const char y', '_Bool y', 'char y[]', 'char y[2]', 'char y[3]', 'signed char y[3]', 'short y[]', 'int y[2]',
             'int y[][2]', 'int y[2][2]', 'char y[2][3]', 'char y[][2]', 'const int y[2]', 'char y[2][2][2]']
    values = ['1', '{1}', '{{1}}', '{1, 2}', '{1, 2, 3}', '{}', '{{}}', '{{1}, {2}}', '{{1, 2}, {3, 4}}', '{{1, 2, 3}}', '{{1}, 2}',
              '{1, {2}}', '"ab"', '{"ab"}', '{{"ab"}}', '("ab")', '{("ab")}', '"abc"', '{"ab", "c"}', '{{"ab"}, "c"}', '{"ab", {1}}', 'n',
              '{n}', 'a', '{a}', 'f()', '{f()}', 'v()', '{v()}', '{1, }', '{"ab", }', '{{1, }, }', '300', '-1', '4294967295u', '{{{1}}}',
              '{{{1, 2}, {3}}, {{4}}}', 'E', '{E, E}', '""', '{""}', '{{"a", "b"}, {"c"}}', '2147483647 + 1', '1 / 0', '"ab"[0]',
              'sizeof y', '{sizeof y, 1}', 'y']
    before = 'enum { E = 2 };\nint n, a[2];\nint f(void) { return 1; }\nvoid v(void) { }\n'
    for t, v in itertools.product(types, values):
        yield f'{before}{t} =\n{v};\n{MAIN}'
        yield f'{before}int main(void) {{\n{t} =\n{v};\nreturn 0; }}\n'
        yield f'{before}int main(void) {{\nstatic {t} =\n{v};\nreturn 0; }}\n'


def arguments(rng):
    """Arguments and parameters."""
    wanted = ['int p', 'const char p', '_Bool p', 'int p[]', 'const int p[]', 'char p[]', 'const char p[]', 'unsigned char p[]',
              'long p[]', 'int p[][2]', 'const int p[][2]', 'int p[][3]', 'char p[][3]', 'int p[2][2]', 'enum e p', 'enum e p[]',
              'unsigned p[]']
    given = ['1', '0', 'n', 'cn', 'a', 'ca', 'm', 'cm', 'm[0]', 'cm[1]', 'a[0]', 'u', 'u[0]', '"ab"', 'f', 'f()', 'v()', 'x', 'cx', 'm3',
             'ch', 'chh', 'ex', 'ea', '(a)', '(1 ? a : a)', 'n = 1', '(n, n)', '(void)n', 'E', 'q', 'cq', 'qm', 'cqm']
    for p, a in itertools.product(wanted, given):
        yield ('enum e { E };\nvoid v(void) { }\nint n, a[4], m[2][2], m3[2][3];\nconst int cn, ca[2], cm[2][2];\nextern int u[];\n'
               f'long x[2];\nconst long cx[2];\nchar ch[3], chh[2][3];\nenum e ex, ea[2];\nint f({p}) {{ return 0; }}\n'
               f'int h(int q[], const int cq[], int qm[][2], const int cqm[][2]) {{\nreturn f(\n{a}); }}\nint u[2];\n{MAIN}')


def parameters(rng):
    """Parameters of declarations and of definitions, and objects of the same forms in a block."""
    types = ['int', 'const int', 'void', 'char', 'const', 'long long', 'enum e', 'enum z', 'unsigned char', 'static int']
    forms = ['', 'x', '[]', 'x[]', 'x[2]', 'x[0]', 'x[-1]', 'x[][2]', 'x[][]', 'x[2][0]', 'x[n]', 'x[N]', 'x[sizeof y]',
             'x[][sizeof y]', 'x[1048577]', 'x[][1048577]']
    before = 'enum e { E };\nint n;\nenum { N = 2 };\n'
    for t, d, first in itertools.product(types, forms, ('', 'int y, ')):
        yield f'{before}int f({first}\n{t}\n{d});\n{MAIN}'
        yield f'{before}int f({first}\n{t}\n{d}) {{ return 0; }}\n{MAIN}'
        yield f'{before}int main(void) {{ int y;\n{t}\n{d}; return 0; }}\n'


def specifiers(rng):
    """Up to three specifiers, and up to five words of numbers, in some order."""
    words = ['void', 'char', 'short', 'int', 'long', 'signed', 'unsigned', '_Bool', 'enum e', 'const', 'static', 'extern', 'enum { A }']
    numbers = ['char', 'short', 'int', 'long', 'signed', 'unsigned']
    for k in range(1, 6):
        for some in itertools.combinations_with_replacement(words if k < 4 else numbers, k):
            some = rng.sample(some, k)
            for tail in ('x;', 'f(void);', ';'):
                yield 'enum e { E };\n' + ' '.join(some) + '\n' + tail + '\n' + MAIN


class Statements:
    """Random statements."""

    def __init__(self, rng):
        self.pick = rng.choice
        self.chance = rng.random

    def expression(self):
        return self.pick(['n', '0', '1', 'n + 1', 'v()', 'f(n)', 'n++', 'a', 'x', 'E', '(void)n', 'a[n]', 'f()', '-n', 'z',
                          '1 ? v() : v()', 'n, v()'])

    def declaration(self):
        form = self.pick(['int %;', 'int % = n;', 'static int %;', 'static int % = 2;', 'enum { % };', 'enum e { % };', 'enum e %;',
                          'char %[3];', 'int %[];', '_Static_assert(E, "m");', 'const int % = 1;', 'enum e;', 'void %;', 'int %, %;',
                          'int % = %;'])
        return re.sub('%', lambda _: self.pick('xyzn'), form)

    def label(self):
        value = self.pick(['0', '1', '2', 'E', 'n', '1 + 1', "'a'", '-1', '4294967295u', '257'])
        return self.pick([f'case {value}:', 'default:'])

    def simple(self):
        e = self.expression()
        return self.pick([e + ';', ';', f'return {e};', 'return;', 'break;', 'continue;', f'{e} = {self.expression()};'])

    def block(self, depth):
        parts = [self.declaration() if self.chance() < 0.33 else self.statement(depth) for _ in range(self.pick([0, 1, 2, 3]))]
        return '{\n' + '\n'.join(parts) + '\n}'

    def statement(self, depth):
        if depth == 0 or self.chance() < 0.35:
            return self.simple()
        e, inner, kind = self.expression(), self.statement(depth - 1), self.chance()
        if kind < 0.12:
            return f'if ({e})\n{inner}'
        if kind < 0.2:
            return f'if ({e}) {self.block(depth - 1)} else\n{inner}'
        if kind < 0.3:
            return f'while ({e})\n{inner}'
        if kind < 0.36:
            return f'do {inner}\nwhile ({e});'
        if kind < 0.5:
            start = self.pick([self.expression() + ';', ';', self.declaration()])
            return f'for ({start} {self.pick(["", e])};\n{self.pick(["", self.expression()])})\n{inner}'
        if kind < 0.75:
            labelled = [f'{self.label()} {self.statement(depth - 1)}' for _ in range(self.pick([1, 2, 3, 4]))]
            return f'switch ({e}) {{\n' + '\n'.join(labelled) + '\n}'
        if kind < 0.8:
            return f'{self.label()} ;'
        return self.block(depth - 1)


def statements(rng):
    make = Statements(rng)
    before = 'enum { E = 1 };\nint x, a[3];\nvoid v(void) { }\nint f(int n) { return n; }\n'
    for _ in range(4000):
        head = rng.choice(['int h(int n)', 'void h(int n, int y[])', 'int main(void)'])
        parts = [make.statement(3) if rng.random() < 0.7 else make.declaration() for _ in range(rng.choice([1, 2]))]
        first = 'int n = 0;\n' if 'main' in head else ''
        yield f'{before}{head} {{\n{first}' + '\n'.join(parts) + '\n}\n' + ('' if 'main' in head else MAIN)


def answer(source):
    """The one answer, none where there are more, or the source has no tree."""
    try:
        found = model.faults(source)
    except (model.Syntax, AssertionError, IndexError):
        return None
    if len(found) > 1:
        return None
    return found[0] if found else 'ok'


def made():
    rng = random.Random(20261125)
    for maker in (declarations, operators, initialisers, arguments, parameters, specifiers, statements):
        for source in maker(rng):
            found = answer(source)
            if found:
                yield source, found


def write(folder):
    rows = re.findall(r'^\| (\d+) \| ([^|]*) \|', (HERE / '../../../docs/DIAGNOSTICS.md').read_text(), re.M)
    texts = {int(code): text for code, text in rows}
    kept = sorted((HERE / 'rows').glob('*.c')) + sorted((HERE / 'accepted').glob('*.c'))
    sources = [(path.read_text(), answer(path.read_text())) for path in kept] + list(made())
    folder.mkdir(parents=True, exist_ok=True)
    (folder / 'stdin').write_text(''.join(source + '@\n' for source, _ in sources))
    told = ('ok' if found == 'ok' else f'main.c:{found[1]}: {found[0]} {texts[found[0]]}' for _, found in sources)
    (folder / 'stdout').write_text(''.join(line + '\n@\n' for line in told))
    print(f'{len(sources)} sources, {sum(found == "ok" for _, found in sources)} of them accepted')


def explained(source, code, refused):
    """Whether README.md says why gcc answers otherwise."""
    if refused:
        return code == 'ok' and 'enum e' in source
    return (code in (501, 552, 620, 621, 622, 623, 712) or (code == 511 and source.count('long') > 1) or
            (code == 513 and 'enum e' in source) or (code in (519, 526) and 'void' in source) or
            (code == 521 and '{{' in source) or (code == 532 and re.search(r'[(\s](0|E)\)', source)))


def compare(count):
    sources = list(made())
    if count:
        sources = random.Random(1).sample(sources, count)
    differ = told = 0
    for source, found in sources:
        refused = subprocess.run(GCC, input=source, capture_output=True, text=True, check=False).returncode != 0
        code = found if found == 'ok' else found[0]
        if refused != (code != 'ok'):
            differ += 1
            if not explained(source, code, refused):
                told += 1
                print(f'FAIL {found}, but gcc {"refuses" if refused else "accepts"}:\n{source}')
    print(f'{len(sources) - told} passed, {told} failed ({differ - told} differ for a reason)')
    return told != 0


if __name__ == '__main__':
    if sys.argv[1] == '--gcc':
        sys.exit(compare(int(sys.argv[2]) if len(sys.argv) > 2 else 0))
    write(pathlib.Path(sys.argv[1]))
