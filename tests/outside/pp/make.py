"""Makes the data of this folder; README.md has the commands.

    python3 make.py headers LIBRARY FILE..    definitions of the FILEs and uses of each
    python3 make.py random                    300 programs of macros
    python3 make.py conditions                2,000 conditions

It prints to standard output, and what was left out to standard error. Needs gcc and clang. What stands in the data
is what both say and what model.py says too.
"""
import os
import random
import re
import subprocess
import sys
import tempfile

import model

FLAGS = ['-std=c11', '-undef', '-nostdinc', '-ffreestanding', '-E', '-P', '-x', 'c']
SEED = 20261123


def outside(program, source, *flags):
    """What a preprocessor writes of a source, its messages, its status."""
    with tempfile.TemporaryDirectory() as folder:
        with open(os.path.join(folder, 'main.c'), 'w', encoding='latin-1') as file:
            file.write(source)
        done = subprocess.run([program, *FLAGS, *flags, 'main.c'], cwd=folder, stdout=subprocess.PIPE,
                              stderr=subprocess.PIPE, encoding='latin-1', check=False, env={**os.environ, 'LC_ALL': 'C'})
    return done.stdout, done.stderr, done.returncode


def note(*words, **how):
    print(*words, file=sys.stderr, **how)


# ------------------------------------------------------------------ headers

def line_text(tokens):
    return ''.join(' ' * (t.space and i > 0) + t.text for i, t in enumerate(tokens))


def definitions(files):
    """The #define lines of the files that stand in the profile, the first of each name."""
    table, lines, left = model.Preprocessor('main.c'), [], {}
    for name in files:
        with open(name, encoding='latin-1', newline='') as file:
            token_lines = model.lines_of(file.read())
        for tokens in token_lines:
            if len(tokens) < 3 or tokens[0].text != '#' or tokens[1].text != 'define':
                continue
            if tokens[2].text in table.macros:
                left['name defined before'] = left.get('name defined before', 0) + 1
                continue
            try:
                table.define(tokens[2:], 1)
            except model.Fault as fault:
                reason = 'fault %d' % fault.code
                left[reason] = left.get(reason, 0) + 1
                continue
            lines.append('#define ' + line_text([tokens[2].copy(space=False)] + tokens[3:]))
    return table, lines, left


def headers(library, files):
    table, lines, left = definitions(files)
    rng = random.Random(SEED)
    names = list(table.macros)
    functions = [n for n in names if table.macros[n].params]

    def plain(name):
        count = len(table.macros[name].params)
        return '%s(%s)' % (name, ', '.join('%s%d' % ('abcdefghk'[i % 9], i) for i in range(count)))

    def argument():
        other = rng.choice(names)
        form = rng.randrange(4)
        if form == 0:
            return '(%s, %d)' % (other if table.macros[other].params is None else 'u', rng.randrange(100))
        if form == 1 and table.macros[other].params is not None:
            return plain(other)
        return '%s + %s' % (other, 'v') if form == 2 else other

    uses = []
    for name in names:
        params = table.macros[name].params
        if params is None:
            uses.append(name)
            if functions and rng.randrange(4) == 0:
                function = rng.choice(functions)
                uses.append('%s(%s)' % (function, ', '.join([name] * len(table.macros[function].params))))
        else:
            uses.append(plain(name))
            if params:
                uses.append('%s(%s)' % (name, ','.join([''] * len(params))))
                uses.append('%s(%s)' % (name, ', '.join(argument() for _ in params)))
                uses.append('%s (%s)' % (name, ', '.join('%s(%s)' % (name, ', '.join('x' for _ in params))
                                                         for _ in params)))
    kept, expected, faults = [], [], {}
    for use in uses:
        tokens = model.lines_of(use + ' ;\n')[0]
        table.left = 20000
        try:
            result = [t.text for t in table.expand(tokens, 'run')]
        except model.Fault as fault:
            faults[fault.code] = faults.get(fault.code, 0) + 1
            continue
        if len(result) > 300:
            faults['over 300 tokens'] = faults.get('over 300 tokens', 0) + 1
            continue
        kept.append(use)
        expected.append(result)
    note('%s: %d definitions, left out %s; %d uses, left out %s' % (library, len(lines), left, len(kept), faults))
    source = '\n'.join(lines) + '\n' + ''.join('"use %d" %s ;\n' % (i, use) for i, use in enumerate(kept))
    answers = {p: segments(model.spellings(outside(p, source)[0])) for p in ('gcc', 'clang')}
    agreed = []
    for i, use in enumerate(kept):
        gcc, clang = (answers[p].get('"use %d"' % i) for p in ('gcc', 'clang'))
        if gcc == clang == expected[i]:
            agreed.append((use, expected[i]))
            continue
        note('  differs: %s' % use)
        note('    gcc   %s' % ' '.join(gcc or ['nothing']))
        note('    clang %s' % ' '.join(clang or ['nothing']))
        note('    model %s' % ' '.join(expected[i]))
    note('%s: %d uses on which all three agree, %d tokens' % (library, len(agreed), sum(len(e) + 1 for _, e in agreed)))
    print('=== %s' % library)
    print('\n'.join(lines))
    for i, (use, _) in enumerate(agreed):
        print('"use %d" %s ;' % (i, use))
    print('--- tokens')
    for i, (_, result) in enumerate(agreed):
        print('"use %d" %s' % (i, ' '.join(result)))


def segments(tokens):
    found, current = {}, None
    for token in tokens:
        if re.fullmatch(r'"use [0-9]+"', token):
            current = found.setdefault(token, [])
        elif current is not None:
            current.append(token)
    return found


# ------------------------------------------------------------------- random

POOL = ['A', 'B', 'C', 'D', 'F', 'G', 'H', 'K', 'M', 'P']
PARAMETERS = ['x', 'y', 'z', 'w']
NUMBERS = ['0', '1', '23', '4.5', '0x1f', '7u', '.9', '1e']
PUNCTUATORS = ['+', '-', '*', '/', '<', '=', '&', '|', ';', ':', '[', ']', '{', '}', '->', '<<', '<:', '%>', '?']
LITERALS = ['"s"', '"a\\n"', "'c'", "'\\''", '"\\\\"', '"x y"', '"%d"']


class Program:
    def __init__(self, rng):
        self.rng = rng
        self.arity = {}
        self.lines = []
        for name in rng.sample(POOL, rng.randrange(3, 9)):
            self.arity[name] = rng.choice([None, None, 0, 1, 1, 2, 2, 3, 4])
        self.names = list(self.arity)
        self.hash = 0

    def space(self):
        return self.rng.choice(['', ' ', ' ', '  ', '/**/', '\t'])

    def atom(self):
        choice = self.rng.randrange(12)
        if choice < 5:
            return self.rng.choice(self.names)
        if choice < 7:
            return self.rng.choice('abcdvn')
        if choice < 9:
            return self.rng.choice(NUMBERS)
        return self.rng.choice(LITERALS) if choice == 9 else self.rng.choice(PUNCTUATORS)

    def call(self, depth, newline=False):
        name = self.rng.choice(self.names)
        arity = self.arity[name]
        if arity is None:
            return name
        gap = lambda: self.rng.choice(['\n', ' ', '']) if newline else self.rng.choice(['', '', ' '])
        arguments = [gap() + self.argument(depth - 1, newline) + gap() for _ in range(arity)]
        return name + gap() + '(' + ','.join(arguments) + ')'

    def argument(self, depth, newline=False):
        pieces = []
        for _ in range(self.rng.choice([0, 1, 1, 1, 2, 3])):
            choice = self.rng.randrange(8)
            if depth > 0 and choice < 3:
                pieces.append(self.call(depth, newline))
            elif choice == 3:
                pieces.append('(' + self.atom() + self.rng.choice([',', ' , ', ',,']) + self.atom() + ')')
            elif choice == 4:
                pieces.append('(' + self.atom() + ')')
            else:
                pieces.append(self.atom())
        return ' '.join(pieces) if self.rng.randrange(2) else self.space().join(pieces)

    def body(self, params):
        items = []
        for _ in range(self.rng.choice([0, 1, 2, 3, 4, 5, 6])):
            choice = self.rng.randrange(12)
            item = self.rng.choice(params) if params and choice < 6 else self.atom()
            if params and choice == 6:
                item = self.rng.choice(['#', '# ', '#', '%:']) + self.rng.choice(params)
            elif choice == 7:
                item = self.call(1)
            elif choice == 8 and params:
                name = self.rng.choice(self.names)
                item = name + '(' + ', '.join(self.rng.choice(params) for _ in range(self.arity[name] or 0)) + ')'
            elif choice == 9:
                item = '(' + ' '.join(self.rng.choice(params or ['a', '3']) for _ in range(self.rng.randrange(3))) + ')'
            elif choice == 10 and params is None and self.rng.randrange(4) == 0:
                item = '#'
            items.append(item)
        text = ''
        for number, item in enumerate(items):
            if number:
                text += self.rng.choice([' ## ', '##', ' %:%: ']) if self.rng.randrange(4) == 0 else self.rng.choice(
                    [' ', ' ', '', '  '])
            text += item
        return text

    def define(self, name):
        arity = self.arity[name]
        params = None if arity is None else PARAMETERS[:arity]
        head = name if params is None else name + '(' + self.rng.choice([',', ', ', ' , ']).join(params) + ')'
        text = '#define ' + head + ' ' + self.body(params)
        if self.rng.randrange(12) == 0 and ' ' in text[9:]:
            at = text.index(' ', 9)
            text = text[:at] + ' \\\n ' + text[at:]
        self.lines.append(text)

    def use(self):
        pieces = []
        for _ in range(self.rng.randrange(1, 5)):
            choice = self.rng.randrange(6)
            if choice < 4:
                pieces.append(self.call(3, choice == 0))
            elif choice == 4:
                pieces.append('(' + self.rng.choice(self.names) + ')' + '(' + self.argument(1) + ')')
            else:
                pieces.append(self.atom())
        self.lines.append(self.rng.choice([' ', '', '\n']).join(pieces) + ' ;')

    def text(self):
        for name in self.names:
            self.define(name)
        if self.rng.randrange(3) == 0:
            self.lines += ['#define S(x) #x', '#define X(x) S(x)']
            for _ in range(self.rng.randrange(1, 4)):
                self.lines.append('X(%s) ;' % self.rng.choice([' ', '', '\n']).join(
                    self.call(2) for _ in range(self.rng.randrange(1, 4))))
        for _ in range(self.rng.randrange(2, 7)):
            self.use()
        while self.rng.randrange(3) == 0:
            name = self.rng.choice(self.names)
            self.lines.append('#undef ' + name)
            if self.rng.randrange(2):
                self.arity[name] = self.rng.choice([None, 0, 1, 2])
                self.define(name)
            elif self.rng.randrange(2):
                self.lines.append('#')
            self.use()
        return '\n'.join(self.lines) + '\n'


def programs(count):
    rng = random.Random(SEED)
    kept, faults, differing, parted = 0, {}, [], 0
    seen = {}
    while kept < count:
        source = Program(rng).text()
        table = model.Preprocessor('main.c')
        try:
            expected = [t.text for t in table.run(source)]
        except model.Fault as fault:
            faults[fault.code] = faults.get(fault.code, 0) + 1
            continue
        used = model.LIMIT - table.left
        if used < 6 or not 10 <= len(expected) <= 400:
            faults['too short or too long'] = faults.get('too short or too long', 0) + 1
            continue
        gcc, clang = (model.spellings(outside(p, source)[0]) for p in ('gcc', 'clang'))
        if gcc != clang:
            parted += 1
            note('--- gcc and clang differ')
            note(source, end='')
            note(' gcc   ' + ' '.join(gcc))
            note(' clang ' + ' '.join(clang))
            note(' model ' + ' '.join(expected))
            continue
        if gcc != expected:
            differing.append((source, gcc, expected))
            continue
        kept += 1
        for name, found in (('with #', re.search(r'define.*(?<![#:])(#|%:)[^#%]', source)), ('with ##', re.search(r'##|%:%:', source)),
                            ('over lines', re.search(r'^[^#].*[(,]\s*\n', source, re.M)), ('with #undef', '#undef' in source)):
            seen[name] = seen.get(name, 0) + bool(found)
        print('=== random %d' % kept)
        print(source, end='')
        print('--- tokens')
        print(' '.join(expected))
    note('%d programs; left out: %s; gcc and clang differ: %d; both differ from the model: %d; kept %s'
         % (kept, faults, parted, len(differing), seen))
    for source, gcc, expected in differing:
        note('--- differs')
        note(source, end='')
        note(' gcc   ' + ' '.join(gcc))
        note(' model ' + ' '.join(expected))

# --------------------------------------------------------------- conditions

PRELUDE = ['#define A 1', '#define B (A + 2)', '#define N', '#define F(x) ((x) + 1)', '#define U 3u', '#define D defined(A)']
CONSTANTS = ['0', '0', '1', '1', '2', '3', '5', '7u', '0u', '1u', '010', '0x1F', '63', '64', '4ul', '6LL', '8ull', '2147483647', '4294967296',
             '0x7fffffffffffffff', '9223372036854775807', '0xffffffffffffffff', '18446744073709551615u',
             '01777777777777777777777', "'a'", "'\\0'", "'\\377'", "'\\n'", "'\\x41'", "'\\''"]
BAD = ['9223372036854775808', '18446744073709551616u', '1.0', '08', '0x', '1uu', '"s"', "''", "'ab'", "L'a'", '1 2', '()', 'defined', 'defined(',
       'defined 1', 'D', '1 = 1', 'A ++', '(1', '1)', '1, 2', '(1, 2)', '? :', '1 ?', '[1]', '#', '\\', '', '~', 'N', 'defined(A B)', '"s" == 1']
LEVELS = [['||'], ['&&'], ['|'], ['^'], ['&'], ['==', '!='], ['<', '>', '<=', '>='], ['<<', '>>'], ['+', '-'], ['*', '/', '%']]


def condition(rng, depth, bad):
    choice = rng.randrange(16) if depth else rng.randrange(4)
    below = lambda: condition(rng, depth - 1, bad)
    if choice < 4:
        if bad and rng.randrange(6) == 0:
            return rng.choice(BAD)
        if choice == 0:
            return rng.choice(['A', 'B', 'U', 'x', 'defined A', 'defined(N)', 'defined ( x )', 'int', 'F'])
        return rng.choice(CONSTANTS)
    if choice == 4:
        return '(%s)' % below()
    if choice < 8:
        return rng.choice('-+~!') + ' ' * rng.randrange(2) + '(%s)' % below() if rng.randrange(2) else rng.choice('-+~!') + ' ' + below()
    if choice == 8:
        return '%s ? %s : %s' % (below(), below(), below())
    if choice == 9:
        return 'F(%s)' % below()
    operator = rng.choice(rng.choice(LEVELS))
    form = rng.choice(['%s %s %s', '%s%s %s', '(%s) %s (%s)', '(%s %s %s)'])
    return form % (below(), operator, below())


class Condition:
    """6.10.1 on 64 bits: values are pairs of a pattern's number and whether it is unsigned."""

    def __init__(self, tokens):
        self.tokens, self.at = tokens, 0

    def peek(self):
        return self.tokens[self.at].text if self.at < len(self.tokens) else None

    def take(self, *texts):
        if self.peek() in texts and self.peek() is not None:
            self.at += 1
            return self.tokens[self.at - 1].text
        return None

    def whole(self):
        tree = self.choice()
        if self.at != len(self.tokens):
            raise model.Fault(221, 1)
        return tree

    def choice(self):
        first = self.binary(0)
        if not self.take('?'):
            return first
        second = self.choice()
        if not self.take(':'):
            raise model.Fault(221, 1)
        return ('?', first, second, self.choice())

    def binary(self, level):
        if level == len(LEVELS):
            return self.unary()
        left = self.binary(level + 1)
        while True:
            operator = self.take(*LEVELS[level])
            if not operator:
                return left
            left = (operator, left, self.binary(level + 1))

    def unary(self):
        operator = self.take('-', '+', '~', '!')
        if operator:
            return ('unary' + operator, self.unary())
        if self.take('('):
            inner = self.choice()
            if not self.take(')'):
                raise model.Fault(221, 1)
            return inner
        if self.at == len(self.tokens):
            raise model.Fault(221, 1)
        token = self.tokens[self.at]
        self.at += 1
        if token.kind == 'name':
            return ('value', 0, False)
        return ('value', *constant(token))


def constant(token):
    if token.kind == 'number':
        match = re.fullmatch(r'(0[xX][0-9a-fA-F]+|0[0-7]*|[1-9][0-9]*)([uU]?(?:ll|LL|[lL])?|(?:ll|LL|[lL])[uU])', token.text)
        if match:
            digits = match.group(1)
            base = 16 if digits[:2] in ('0x', '0X') else 8 if digits[0] == '0' else 10
            value, unsigned = int(digits, base), 'u' in match.group(2).lower()
            if value < 1 << 64 and (value < 1 << 63 or unsigned or base != 10):
                return value, unsigned or value >= 1 << 63
    elif token.kind == 'char' and token.text[0] == "'":
        inner = token.text[1:-1]
        match = re.fullmatch(r'\\([0-7]{1,3})|\\x([0-9a-fA-F]+)|\\([\'"?\\abfnrtv])|([^\\])', inner)
        if match:
            octal, hexadecimal, escape, plain = match.groups()
            value = int(octal, 8) if octal else int(hexadecimal, 16) if hexadecimal else \
                {'a': 7, 'b': 8, 't': 9, 'n': 10, 'v': 11, 'f': 12, 'r': 13}.get(escape, ord(escape)) if escape else ord(plain)
            if value < 256:
                return value, False
    raise model.Fault(221, 1)


def fit(value, unsigned):
    if unsigned:
        return value % (1 << 64), True
    if not -(1 << 63) <= value < 1 << 63:
        raise model.Fault(222, 1)
    return value, False


def unsigned_of(tree):
    if tree[0] == 'value':
        return tree[2]
    if tree[0] in ('||', '&&', 'unary!', '==', '!=', '<', '>', '<=', '>='):
        return False
    if tree[0] in ('<<', '>>') or tree[0].startswith('unary'):
        return unsigned_of(tree[1])
    return unsigned_of(tree[-1]) or unsigned_of(tree[-2])


def value_of(tree):
    kind = tree[0]
    if kind == 'value':
        return tree[1]
    unsigned = unsigned_of(tree)
    if kind in ('||', '&&'):
        left = value_of(tree[1]) != 0
        return int(left) if left == (kind == '||') else int(value_of(tree[2]) != 0)
    if kind == '?':
        return fit(value_of(tree[2] if value_of(tree[1]) else tree[3]), unsigned)[0] if not unsigned else \
            value_of(tree[2] if value_of(tree[1]) else tree[3]) % (1 << 64)
    left = value_of(tree[1])
    if kind.startswith('unary'):
        return int(not left) if kind[5] == '!' else fit({'-': -left, '+': left, '~': ~left}[kind[5]], unsigned)[0]
    right = value_of(tree[2])
    if kind in ('<<', '>>'):
        if not 0 <= right < 64 or kind == '<<' and left < 0:
            raise model.Fault(222, 1)
        return fit(left << right, unsigned)[0] if kind == '<<' else left >> right
    if unsigned_of(tree[1]) or unsigned_of(tree[2]):
        left, right = left % (1 << 64), right % (1 << 64)
    if kind in ('/', '%'):
        if right == 0:
            raise model.Fault(222, 1)
        quotient = abs(left) // abs(right) * (1 if (left < 0) == (right < 0) else -1)
        fit(quotient, unsigned)
        return quotient if kind == '/' else left - quotient * right
    if kind in ('+', '-', '*', '&', '^', '|'):
        return fit({'+': left + right, '-': left - right, '*': left * right, '&': left & right, '^': left ^ right,
                    '|': left | right}[kind], unsigned)[0]
    return int({'==': left == right, '!=': left != right, '<': left < right, '>': left > right, '<=': left <= right,
                '>=': left >= right}[kind])


def verdict(text):
    """1, 0, or the fault of a condition behind the prelude."""
    table = model.Preprocessor('main.c')
    table.run('\n'.join(PRELUDE) + '\n')
    tokens, resolved, at = model.lines_of(text + '\n')[0], [], 0
    try:
        while at < len(tokens):
            if tokens[at].text != 'defined':
                resolved.append(tokens[at])
                at += 1
                continue
            rest = [t.text for t in tokens[at + 1:at + 4]] + [''] * 3
            kinds = [t.kind for t in tokens[at + 1:at + 4]] + [''] * 3
            length = 2 if kinds[0] == 'name' else 4 if rest[0] == '(' and kinds[1] == 'name' and rest[2] == ')' else 0
            if not length:
                raise model.Fault(221, 1)
            name = rest[0] if length == 2 else rest[1]
            resolved.append(model.Token(str(int(name in table.macros or name in model.PREDEFINED)), 'number', True, 1))
            at += length
        tokens = table.expand(resolved, 'directive')
        if any(t.text == 'defined' for t in tokens):
            raise model.Fault(223, 1)
        return str(int(value_of(Condition(tokens).whole()) != 0))
    except model.Fault as fault:
        return str(fault.code)


def conditions(count):
    rng = random.Random(SEED)
    texts = []
    while len(texts) < count:
        text = condition(rng, rng.randrange(1, 5), rng.randrange(6) == 0)
        if len(text) < 200 and text not in texts and '//' not in text and '/*' not in text and not text.endswith('\\'):
            texts.append(text)
    source = '\n'.join(PRELUDE) + '\n' + ''.join('#if %s\n"use %d" 1\n#else\n"use %d" 0\n#endif\n' % (t, i, i) for i, t in enumerate(texts))
    out, messages, _ = outside('gcc', source, '-pedantic', '-funsigned-char')
    answers = segments(model.spellings(out))
    complaints = {int(n): m for n, m in re.findall(r'^main\.c:([0-9]+):[0-9]+: ((?:error|warning).*)', messages, re.M)}
    counts = {}
    print('# Conditions, with what stands before them: first 1 or 0, or the fault, then the expression. README.md has the command.')
    print('\n'.join(PRELUDE))
    for i, text in enumerate(texts):
        mine, complaint = verdict(text), complaints.get(len(PRELUDE) + 1 + 5 * i)
        gcc = 'complains' if complaint else answers['"use %d"' % i][0]
        counts[(mine, gcc)] = counts.get((mine, gcc), 0) + 1
        if len(mine) == 1 and mine != gcc or len(mine) == 3 and not complaint:
            note('%s, gcc %s: %s: %s' % (mine, gcc, text, complaint))
        print('%s | %s' % (mine, text))
    note(counts)



def main():
    if sys.argv[1:2] == ['headers'] and len(sys.argv) > 3:
        headers(sys.argv[2], sys.argv[3:])
    elif sys.argv[1:] == ['random']:
        programs(300)
    elif sys.argv[1:] == ['conditions']:
        conditions(2000)
    else:
        sys.exit(__doc__)


if __name__ == '__main__':
    main()
