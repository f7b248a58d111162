"""Makes rows.txt: python3 tests/outside/const/make.py, from the repository's root.

Needs gcc with -m32, and clang. Random constant expressions come from a fixed seed. Each is asked of gcc, of clang, and of the
small model below, which was written from ISO/IEC 9899:2011 6.3 to 6.6 alone and knows which operation is the first without a
value. Those on whose type and value all three agree stand in the rows with gcc's answer, and those which gcc and the model refuse with
the model's code and line (clang only warns of an operation without a value); where they differ the expression is left out and
told on standard error. The rows of by_hand.txt follow, with what is written there; what gcc and clang say of them is told on
standard error where it differs.
"""
import random
import re
import subprocess
import sys

SEED = 20261124
VALUES, REFUSED = 200, 60
FOLDER = 'tests/outside/const'
FLAGS = ['-m32', '-std=c11', '-pedantic-errors', '-funsigned-char', '-S', '-x', 'c', '-o', '-', '-']
TEXTS = {502: 'constant expression out of range', 503: 'constant division by zero'}


# ------------------------------------------------------------------ types

class Type:
    def __init__(self, name, size, signed, rank):
        self.name, self.size, self.signed, self.rank = name, size, signed, rank
        self.bits = 8 * size
        self.least = -2 ** (self.bits - 1) if signed else 0
        self.greatest = 2 ** (self.bits - (1 if signed else 0)) - 1

    def has(self, v):
        return self.least <= v <= self.greatest

    def convert(self, v):
        """6.3.1.2, 6.3.1.3; out of a signed type's range gcc's choice: modulo."""
        if self is BOOL:
            return int(v != 0)
        v %= 2 ** self.bits
        return v - 2 ** self.bits if v > self.greatest else v


BOOL, CHAR, SCHAR, UCHAR = Type('_Bool', 1, False, 0), Type('char', 1, False, 1), Type('signed char', 1, True, 1), Type('unsigned char', 1, False, 1)
SHORT, USHORT, INT, UINT = Type('short', 2, True, 2), Type('unsigned short', 2, False, 2), Type('int', 4, True, 3), Type('unsigned int', 4, False, 3)
LONG, ULONG = Type('long', 4, True, 4), Type('unsigned long', 4, False, 4)
TYPES = [BOOL, CHAR, SCHAR, UCHAR, SHORT, USHORT, INT, UINT, LONG, ULONG]
BOOL.greatest = 1
# names of each type, in several orders (6.7.2p2)
WORDS = {'_Bool': BOOL, 'char': CHAR, 'signed char': SCHAR, 'char signed': SCHAR, 'unsigned char': UCHAR, 'short': SHORT,
         'short int': SHORT, 'signed short': SHORT, 'int signed short': SHORT, 'unsigned short': USHORT, 'short unsigned int': USHORT,
         'int': INT, 'signed': INT, 'const int': INT, 'unsigned': UINT, 'unsigned int': UINT, 'long': LONG, 'long int': LONG,
         'signed long const': LONG, 'unsigned long': ULONG, 'long unsigned': ULONG, 'int long unsigned': ULONG}


def promoted(t):
    """6.3.1.1p2"""
    return INT if t.rank < INT.rank else t


def usual(a, b):
    """6.3.1.8"""
    a, b = promoted(a), promoted(b)
    if a is b:
        return a
    if a.signed == b.signed:
        return a if a.rank > b.rank else b
    plain, other = (b, a) if a.signed else (a, b)
    if plain.rank >= other.rank:
        return plain
    if other.greatest >= plain.greatest:
        return other
    return ULONG if other is LONG else UINT


# ------------------------------------------------------------- expressions

class Refused(Exception):
    """An operation without a value: its code, and the number of its token."""


class Tokens(list):
    def add(self, *texts):
        self.extend(texts)
        return len(self) - 1


# Each expression has a type, writes its tokens (and keeps the place of its operator), and has a value where it is evaluated.
class Leaf:
    level = 16

    def __init__(self, tokens, t, v):
        self.tokens, self.type, self.v = tokens, t, v

    def write(self, out):
        out.add(*self.tokens)

    def value(self):
        return self.v


def write_at(e, level, out, more):
    """An operand, in parentheses where it binds less, and sometimes where it does not."""
    if e.level < level or more:
        out.add('(')
        e.write(out)
        out.add(')')
    else:
        e.write(out)


class Sign:
    level = 14

    def __init__(self, op, a):
        self.op, self.a = op, a
        self.type = INT if op == '!' else promoted(a.type)

    def write(self, out):
        self.place = out.add(self.op)
        write_at(self.a, 14, out, self.a.level == 14 and self.op in '+-')

    def value(self):
        t, v = promoted(self.a.type), promoted(self.a.type).convert(self.a.value())
        if self.op == '!':
            return int(v == 0)
        if self.op == '+':
            return v
        return in_range(t, ~v if self.op == '~' else -v, self.place)


def in_range(t, v, place):
    """6.5p5, 6.2.5p9"""
    if t.signed and not t.has(v):
        raise Refused(502, place)
    return t.convert(v)


LEVELS = {'*': 13, '/': 13, '%': 13, '+': 12, '-': 12, '<<': 11, '>>': 11, '<': 10, '>': 10, '<=': 10, '>=': 10, '==': 9, '!=': 9,
          '&': 8, '^': 7, '|': 6, '&&': 5, '||': 4}
COMPARE = {'<': lambda a, b: a < b, '>': lambda a, b: a > b, '<=': lambda a, b: a <= b, '>=': lambda a, b: a >= b,
           '==': lambda a, b: a == b, '!=': lambda a, b: a != b}


class Binary:
    def __init__(self, op, a, b, more):
        self.op, self.a, self.b, self.more, self.level = op, a, b, more, LEVELS[op]
        self.of = promoted(a.type) if op in ('<<', '>>') else usual(a.type, b.type)
        self.type = INT if op in COMPARE or op in ('&&', '||') else self.of

    def write(self, out):
        write_at(self.a, self.level, out, self.more)
        self.place = out.add(self.op)
        write_at(self.b, self.level + 1, out, False)

    def value(self):
        op, t = self.op, self.of
        if op == '&&':
            return int(self.a.value() != 0 and self.b.value() != 0)
        if op == '||':
            return int(self.a.value() != 0 or self.b.value() != 0)
        a = t.convert(self.a.value())
        b = self.b.value()
        if op in ('<<', '>>'):
            return self.shifted(t, a, b)
        b = t.convert(b)
        if op in COMPARE:
            return int(COMPARE[op](a, b))
        if op in ('/', '%'):
            return self.divided(t, a, b)
        return in_range(t, {'*': a * b, '+': a + b, '-': a - b, '&': a & b, '^': a ^ b, '|': a | b}[op], self.place)

    def shifted(self, t, a, b):
        """6.5.7p3 to p5"""
        if not 0 <= b < t.bits:
            raise Refused(502, self.place)
        if self.op == '>>':
            return a >> b
        if a < 0:
            raise Refused(502, self.place)
        return in_range(t, a << b, self.place)

    def divided(self, t, a, b):
        """6.5.5p5, p6"""
        if b == 0:
            raise Refused(503, self.place)
        quotient = abs(a) // abs(b) * (1 if (a < 0) == (b < 0) else -1)
        in_range(t, quotient, self.place)
        return t.convert(quotient if self.op == '/' else a - b * quotient)


class Choice:
    level = 3

    def __init__(self, c, a, b):
        self.c, self.a, self.b, self.type = c, a, b, usual(a.type, b.type)

    def write(self, out):
        write_at(self.c, 4, out, False)
        self.place = out.add('?')
        write_at(self.a, 2, out, False)
        out.add(':')
        write_at(self.b, 3, out, False)

    def value(self):
        return self.type.convert((self.a if self.c.value() != 0 else self.b).value())


class Cast:
    level = 14

    def __init__(self, words, a):
        self.words, self.a, self.type = words, a, WORDS[words]

    def write(self, out):
        out.add('(', *self.words.split(), ')')
        write_at(self.a, 14, out, False)

    def value(self):
        return self.type.convert(self.a.value())


class Size:
    """The operand is not evaluated (6.5.3.4p2)."""
    level = 14

    def __init__(self, a):
        self.a, self.type = a, UINT

    def write(self, out):
        out.add('sizeof')
        write_at(self.a, 15, out, True)

    def value(self):
        return self.a.type.size


# ------------------------------------------------------------------ random

HEAD = 'enum t { A = 3, B, C = -2, D = \'z\' }; char c; short s[3]; unsigned long m[2][5]; _Bool b;\n'
NAMES = [('A', 3), ('B', 4), ('C', -2), ('D', 122)]
SIZED = [('c', 1), ('s', 6), ('s [ 1 ]', 2), ('m', 40), ('m [ 0 ]', 20), ('m [ 1 ] [ 4 ]', 4), ('( b )', 1), ('"abc"', 4),
         ('"a" "\\0" "b"', 4), ('"abc" [ 0 ]', 1), ('""', 1), ("( int [ 3 ] )", 12), ('( char [ 2 ] [ 7 ] )', 14), ('( enum t )', 4),
         ('( unsigned short [ A + 1 ] )', 8), ('( long [ sizeof ( int ) ] )', 16)]
CHARACTERS = [("'a'", 97), ("'0'", 48), ("'\\0'", 0), ("'\\n'", 10), ("'\\''", 39), ("'\"'", 34), ("'\\\\'", 92), ("'\\177'", 127),
              ("'\\200'", 128), ("'\\377'", 255), ("'\\x7f'", 127), ("'\\xff'", 255), ("'\\?'", 63), ("' '", 32)]
NUMBERS = [0, 0, 1, 1, 2, 3, 5, 7, 8, 10, 15, 16, 17, 31, 32, 33, 100, 127, 128, 255, 256, 1000, 32767, 32768, 46340, 46341, 65535, 65536,
           2 ** 30, 2 ** 31 - 1, 2 ** 31 - 1, 2 ** 31, 2 ** 31 + 1, 2 ** 32 - 1, 2 ** 32 - 1]


def constant(draw):
    """6.4.4.1p5: the first type of the list that has the value."""
    v = draw.choice(NUMBERS) if draw.random() < 0.8 else draw.randrange(2 ** draw.randrange(1, 33))
    form = draw.choice(['%d', '%d', '%d', '0x%x', '0X%X', '0%o'])
    suffix = draw.choice(['', '', '', '', 'u', 'U', 'l', 'L', 'ul', 'UL', 'lu', 'Lu'])
    types = [t for t in (INT, UINT, LONG, ULONG)
             if ('u' not in suffix.lower() or not t.signed) and ('l' not in suffix.lower() or t.rank == LONG.rank)
             and (t.signed or form != '%d' or 'u' in suffix.lower()) and t.has(v)]
    return Leaf([form % v + suffix], types[0], v) if types else constant(draw)


def leaf(draw):
    k = draw.random()
    if k < 0.7:
        return constant(draw)
    if k < 0.8:
        text, v = draw.choice(CHARACTERS)
        return Leaf([text], INT, v)
    if k < 0.9:
        text, v = draw.choice(NAMES)
        return Leaf([text], INT, v)
    text, v = draw.choice(SIZED)
    made = Leaf(['sizeof', *re.findall(r'"(?:\\.|[^"])*"|\S+', text)], UINT, v)
    made.level = 14
    return made


def expression(draw, depth):
    if depth == 0 or draw.random() < 0.1:
        return leaf(draw)
    k = draw.random()
    if k < 0.14:
        return Sign(draw.choice('+--~~!'), expression(draw, depth - 1))
    if k < 0.24:
        return Cast(draw.choice(list(WORDS)), expression(draw, depth - 1))
    if k < 0.28:
        return Size(expression(draw, depth - 1))
    if k < 0.36:
        return Choice(expression(draw, depth - 1), expression(draw, depth - 1), expression(draw, depth - 1))
    op = draw.choice(list(LEVELS) + ['<<', '>>', '/', '%', '*', '-'])
    if op in ('<<', '>>') and draw.random() < 0.7:
        right = Leaf([str(draw.randrange(34))], INT, 0)
        right.v = int(right.tokens[0])
    else:
        right = expression(draw, depth - 1)
    return Binary(op, expression(draw, depth - 1), right, draw.random() < 0.1)


# ------------------------------------------------------------- the others

def asked(compiler, source, probe):
    """The assembler text that a compiler makes of a source and this behind it, or none where it refuses them."""
    done = subprocess.run([compiler, *FLAGS], input=source + probe, capture_output=True, encoding='utf-8', check=False)
    return done.stdout if done.returncode == 0 else None


def word_of(text, name):
    """The bytes of an object of assembler text, as a number."""
    match = re.search(r'^%s:\n((?:\s+\.(?:long|value|quad|zero)\s.*\n)+)' % name, text, re.M)
    v = shift = 0
    for kind, n in re.findall(r'\.(long|quad|zero)\s+(-?\w+)', match.group(1)):
        width = 8 * int(n) if kind == 'zero' else 64 if kind == 'quad' else 32
        v |= (0 if kind == 'zero' else int(n, 0) % 2 ** width) << shift
        shift += width
    return v


def others_say(compiler, head, text):
    """`TYPE VALUE` by a compiler, or none where it refuses the expression."""
    arms = ', '.join('%s: %d' % (t.name, i + 1) for i, t in enumerate(TYPES))
    probe = '_Static_assert(0 * (%s) + 1, ""); int type = _Generic((%s), %s); long long v = (%s); int last = 1;\n' % (text, text, arms, text)
    said = asked(compiler, head, probe)
    if said is None:
        return None
    v = word_of(said, 'v')
    return '%s %d' % (TYPES[word_of(said, 'type') - 1].name, v - 2 ** 64 if v >= 2 ** 63 else v)


def model_says(e, tokens):
    """`TYPE VALUE`, or the code and the number of the token that is blamed."""
    try:
        return '%s %d' % (e.type.name, e.value()), None
    except Refused as refused:
        return None, refused.args


def note(*words):
    print(*words, file=sys.stderr)


def differs(gcc, clang, model):
    return 'gcc %s, clang %s, model %s' % (gcc, clang, model)


def random_rows():
    """Sources with what is expected of each."""
    draw, values, refused, seen, left = random.Random(SEED), [], [], set(), {}
    while len(values) < VALUES or len(refused) < REFUSED:
        e, tokens = expression(draw, draw.choice([1, 2, 2, 3, 3, 4])), Tokens()
        e.write(tokens)
        text = ' '.join(tokens)
        if text in seen or isinstance(e, Leaf) and draw.random() < 0.7:
            continue
        seen.add(text)
        gcc, clang = others_say('gcc', HEAD, text), others_say('clang', HEAD, text)
        model, fault = model_says(e, tokens)
        if gcc != model or model and clang != model:
            kind = differs('refuses' if gcc is None else 'answers', 'refuses' if clang is None else 'answers',
                           'refuses' if fault else 'answers')
            left[kind] = left.get(kind, 0) + 1
            note('left out: %s: %s' % (text, differs(gcc, clang, fault or model)))
        elif model and len(values) < VALUES:
            values.append((HEAD + 'enum { e = %s };\n' % text, gcc))
        elif fault and len(refused) < REFUSED:
            # a token a line, from line 3 on
            refused.append((HEAD + 'enum { e =\n%s\n};\n' % '\n'.join(tokens), 'main.c:%d: %d %s' % (fault[1] + 3, fault[0], TEXTS[fault[0]])))
    for kind in sorted(left):
        note('%d left out where %s' % (left[kind], kind))
    return values, refused


# ----------------------------------------------------------------- by hand

def hand_rows():
    with open(FOLDER + '/by_hand.txt', encoding='ascii') as file:
        parts = re.split(r'^=== .*\n', file.read(), flags=re.M)[1:]
    return [re.fullmatch(r'(.*\n)--- ([^\n]*)\n+', part, re.S).groups() for part in parts]


def tell_differences(source, expected):
    """What gcc and clang say of a row by hand, where that differs."""
    for compiler in ('gcc', 'clang'):
        if expected.startswith('main.c'):
            said = 'takes it' if asked(compiler, source, '') is not None else expected
        else:
            head, text = re.fullmatch(r'(.*?)enum \{ e = (.*) \};\n', source, re.S).groups()
            said = others_say(compiler, head, text)
        if said != expected:
            note('%s: %s: %s, here %s' % (compiler, ' '.join(source.split()), said, expected))


def main():
    values, refused = random_rows()
    by_hand = hand_rows()
    for source, expected in by_hand:
        tell_differences(source, expected)
    rows = values + refused + by_hand
    with open(FOLDER + '/rows.txt', 'w', encoding='ascii') as file:
        file.writelines('===\n%s--- %s\n' % row for row in rows)
    note('%d rows with values, %d refused, %d by hand' % (len(values), len(refused), len(by_hand)))


if __name__ == '__main__':
    main()
