#!/usr/bin/env python3
"""check.py CC: the rows of the files here, as far as the program shows what they say: tokens by `cc pp`, faults by `cc build`, values, sizes and
signs of constants and of operations by what an interpreted program writes, or by static assertions. The last line counts.

The first line of each file says what its rows are and where they come from; README.md says which part of a row is held here, and
which by crates/test_calls.
"""
import os
import sys

HERE = os.path.dirname(os.path.abspath(__file__))
sys.path.insert(0, os.path.dirname(os.path.dirname(HERE)))
import harness
import plain

NAMES = {'Bool': '_Bool', 'Char': 'char', 'SChar': 'signed char', 'UChar': 'unsigned char', 'Short': 'short', 'UShort': 'unsigned short', 'Int': 'int',
         'UInt': 'unsigned', 'Long': 'long', 'ULong': 'unsigned long'}
SIGNS = {'Mul': '*', 'Div': '/', 'Rem': '%', 'Add': '+', 'Sub': '-', 'Shl': '<<', 'Shr': '>>', 'Less': '<', 'Greater': '>', 'LessEqual': '<=',
         'GreaterEqual': '>=', 'Equal': '==', 'NotEqual': '!=', 'BitAnd': '&', 'BitXor': '^', 'BitOr': '|'}
MAIN = 'int main(void) { return 0; }\n'
PUT = 'void rv_putbyte(int c);\nstatic void word(unsigned n) { rv_putbyte(n); rv_putbyte(n >> 8); rv_putbyte(n >> 16); rv_putbyte(n >> 24); }\n'


def said(done):
    """What a command wrote, or the line of a fault."""
    status, output, line = done
    return output if (status, line) == (0, b'') else line.rstrip(b'\n')


def fault_of(program, text):
    """The code and the line of the fault with which a build of the text ends."""
    program.write('main.c', text)
    status, _, line = program.run('build', 'main.c', '-o', 'out')
    return harness.code_and_line(line.decode('latin-1').rstrip('\n')) if status == 1 else f'status {status}'


# ---- phases 1 to 3

def tokens_of(program, text):
    program.write('main.c', text)
    return said(program.run('pp', 'main.c'))


def undirected(text):
    """Whether no line of the text is a directive."""
    return all(not line or line[0][1] not in (b'#', b'%:') for line in plain.scanned(text))


def texts(program, row):
    """The tokens of a text. One with a directive has them behind a name; a header name is none there, so such a text is left to test_calls."""
    text, wanted = row[0], (row[1] if len(row) > 1 else b'').replace(b'\n', b'')
    if undirected(text):
        return [(tokens_of(program, text), wanted.rstrip(b' ') + b'\n')]
    if b'include' in text or b'\n' in text.rstrip(b'\n'):
        return []
    return [(tokens_of(program, b'x ' + text), b'x ' + wanted.rstrip(b' ') + b'\n')]


def faults(program, row):
    return [(fault_of(program, row[0]), b' '.join(row[1:]).decode())]


def mark(number):
    return b'mark_%d' % number


def plain_tokens(text):
    return [spelling for line in plain.scanned(text) for _, spelling, _, _ in line]


def two_bytes(program, first):
    """All texts of two bytes that begin so, each with a newline behind it: those that are refused one by one, the others together, each
    behind a mark; a `#` that would begin a directive behind a name."""
    together, found = [], []
    for second in range(256):
        text = bytes([first, second, 10])
        try:
            plain.scanned(text)
            together.append(text)
        except plain.Fault as fault:
            found.append((text, fault_of(program, text), '%d %d' % fault.args))
    source, wanted = [], []
    for number, text in enumerate(together):
        if not undirected(text):
            text = text.replace(b'#', b'x #').replace(b'%:', b'x %:')
        source.append(mark(number) + b'\n' + text)
        wanted.append(b' '.join([mark(number), *plain_tokens(text)]))
    told = tokens_of(program, b''.join(source))
    for number, (text, tokens) in enumerate(zip(together, wanted)):
        at, end = told.find(mark(number) + b' '), told.find(b' ' + mark(number + 1) + b' ')
        found.append((text, told[at:end if end >= 0 else len(told) - 1], tokens))
    return found


def open_texts(program, pair):
    """Texts of two bytes without a newline behind them. One is a directive, and one of those above."""
    if bytes(pair) == b'#\n':
        return []
    try:
        wanted = b' '.join(plain_tokens(bytes(pair))) + b'\n'
        return [(tokens_of(program, bytes(pair)), wanted)]
    except plain.Fault as fault:
        return [(fault_of(program, bytes(pair)), '%d %d' % fault.args)]


def limits(program, _):
    """A spelling of 4,095 bytes, one of 4,096, an open comment behind it; a megabyte of open quotes; 250,000 literals side by side."""
    long_name = b'\n\n' + b'a' * 4096
    pairs = [(tokens_of(program, long_name[:-1] + b'\n'), b'a' * 4095 + b'\n'),
             (fault_of(program, long_name + b'\n'), '703 3'),
             (fault_of(program, long_name + b'\n/*\n'), '113 4')]
    quotes = b"'" + b"\\'\\\"" * 250000
    pairs.append((tokens_of(program, quotes + b'\n'), b' '.join(bytes([byte]) for byte in quotes) + b'\n'))
    pairs.append((program.checked(b'_Static_assert(sizeof(' + b'"a" ' * 250000 + b') == 250001, "m");\n' + MAIN.encode()), 'ok'))
    return pairs


# ---- tokens of C

def refused_line(program, row):
    """A line with a faulty token; others, and a directive, are rows of test_calls alone."""
    if not row[1].isdigit() or row[0].startswith(b'#'):
        return []
    return [(fault_of(program, row[0] + b'\n'), row[1].decode() + ' 1')]


def constant(program, row):
    """The value of a constant, and whether its type is signed and of four bytes."""
    if row[1].isdigit():
        return refused_line(program, row)
    name, value = row[1].decode()[len('Constant('):-1].split(', ')
    text = row[0].decode('latin-1')
    held = f'_Static_assert(sizeof({text}) == 4 && (0 * {text} - 1 < 0) == {int(name in ("Int", "Long"))}, "m");\n'
    program.write('main.c', PUT + held + f'int main(void) {{ word({text}); return 0; }}\n')
    return [(said(program.run('interp', 'main.c')), int(value).to_bytes(4, 'little'))]


def strings(program, row):
    text = row[0].decode('latin-1')
    program.write('main.c', f'void rv_putbyte(int c);\nint main(void) {{ char s[] = {text}; for (unsigned i = 0; i < sizeof s; i++) rv_putbyte(s[i]); return 0; }}\n')
    return [(said(program.run('interp', 'main.c')), row[1])]


# ---- types and operations

def literal(value):
    if value > 2 ** 31 - 1:
        return f'{value}u'
    return '(-2147483647 - 1)' if value == -2 ** 31 else f'({value})'


def operations(program, row):
    """The value or the undefined act of one operator, and the size and the sign of its type."""
    left, a, sign, right, b, of, value = [field.decode() for field in row]
    source = PUT + f'int main(void) {{ {NAMES[left]} a = {literal(int(a))}; {NAMES[right]} b = {literal(int(b))};\nword(a {SIGNS[sign]} b); return 0; }}\n'
    program.write('main.c', source)
    wanted = f'main.c:4: undefined {value}'.encode() if value.startswith('U') else (int(value) % 2 ** 32).to_bytes(4, 'little')
    of_type = f'{NAMES[left]} a; {NAMES[right]} b; _Static_assert(sizeof(a {SIGNS[sign]} b) == 4, "m");\n'
    return [(said(program.run('interp', 'main.c')), wanted), (program.checked(of_type + MAIN), 'ok')] + [sign_of(program, left, sign, right, of)]


def sign_of(program, left, sign, right, of):
    """Whether an operation's type is signed: what a sum with it of -1 is."""
    program.write('main.c', PUT + f'int main(void) {{ {NAMES[left]} a = 1; {NAMES[right]} b = 1; word((a {SIGNS[sign]} b) * 0 - 1 < 0); return 0; }}\n')
    return said(program.run('interp', 'main.c')), bytes([of in ('Int', 'Long'), 0, 0, 0])


def conversions(program, row):
    """A number that a constant of this profile can have, converted."""
    of, value, wanted = row[0].decode(), int(row[1]), int(row[2])
    if not -2 ** 31 <= value < 2 ** 32:
        return []
    program.write('main.c', PUT + f'int main(void) {{ {NAMES[of]} a = {literal(value)}; word(a); word(({NAMES[of]}){literal(value)}); return 0; }}\n')
    return [(said(program.run('interp', 'main.c')), (wanted % 2 ** 32).to_bytes(4, 'little') * 2)]


def types(program, row):
    of, size, least, greatest, width, signed = [field.decode() for field in row]
    name, is_signed = NAMES[of], signed == 'signed'
    least, greatest = int(least), int(greatest)
    outside = [value for value in (least - 1, greatest + 1) if -2 ** 31 <= value < 2 ** 32 and of != 'Bool']
    held = [f'sizeof({name}) == {size}', f'({name}){literal(least)} == {literal(least)}', f'({name}){literal(greatest)} == {literal(greatest)}']
    held += [f'({name}){literal(value)} != {literal(value)} || (({name}){literal(value)} < 0) != ({literal(value)} < 0)' for value in outside]
    if of != 'Bool':
        held.append(f'({name})(1u << {int(width) - 1}) != 0')
        held.append(f'(({name})-1 < 0) == {int(is_signed)}')
    return [(program.checked(f'_Static_assert({it}, "m");\n' + MAIN), 'ok') for it in held]


def pairs_of_types(program, row):
    """Whether two declarations of one object with these types agree, and the sign of the common type."""
    left, right, alike, _, common = [field.decode() for field in row]
    told = program.checked(f'extern {NAMES[left]} a;\nextern {NAMES[right]} a;\n' + MAIN)
    is_same = told == 'ok'
    return [(is_same, alike == 'compatible'), (is_same or told.startswith('main.c:2: 515 '), True), sign_of(program, left, 'Add', right, common)]


# each file with what is asked of its rows, and how many rows there are
SUBJECTS = [('texts', texts, 65), ('trigraphs', texts, 95), ('faults', faults, 17), ('words', refused_line, 100), ('integer_constants', constant, 190),
            ('character_constants', constant, 27), ('numbered_characters', constant, 512), ('faulty_lines', refused_line, 86), ('strings', strings, 12),
            ('operations', operations, 200), ('worked_operations', operations, 12), ('conversions', conversions, 86), ('types', types, 10),
            ('pairs_of_types', pairs_of_types, 5)]
# bytes that mean something in phases 1 to 3
EDGES = b"\n\r\\?/*'\"a0 .#<%:=L\t\xff\x00@"


def asked(case, ask, row):
    case.leave('a row of crates/test_calls alone')
    for found, wanted in ask(case.program, row):
        case.expect('', found, wanted)


def asked_of_two_bytes(case, first):
    for text, found, wanted in two_bytes(case.program, first):
        case.expect(text, found, wanted)


def cases(_):
    for name, ask, rows in SUBJECTS:
        all_of_them = list(harness.fields(os.path.join(HERE, name)))
        for row in all_of_them:
            yield harness.Row(f'{name} {row[0].decode("latin-1")}', asked, ask, row)
        yield harness.number_of(name, len(all_of_them), rows)
    for first in range(256):
        yield harness.Row(f'two bytes from {first:02x}', asked_of_two_bytes, first)
    for pair in ((first, second) for first in EDGES for second in EDGES):
        yield harness.Row('open text %02x %02x' % pair, asked, open_texts, pair)
    yield harness.Row('limits', asked, limits, None)


if __name__ == '__main__':
    sys.exit(harness.main(cases))
