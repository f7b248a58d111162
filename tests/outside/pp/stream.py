#!/usr/bin/env python3
"""The rows of streams of crates/test_calls, which `../rows.py` writes.

The sources are those of this folder and of tests/outside/front that are one file, and those of BY_HAND. What is wanted is what their rows say:
the fault and its line, or the tokens, which are counted. What C tokens become of them is counted here by ISO/IEC 9899:2011 6.4 and the codes of
docs/DIAGNOSTICS.md; where a token is none, its line has to be known as well: that of the only line of text, of the mark `"use N"` before it, or of
model.py, where that has the row's tokens. Sources with an at sign are left out, and those of tests/outside/front with directives.
"""
import os
import re
import sys

HERE = os.path.dirname(os.path.abspath(__file__))
FRONT = os.path.join(HERE, '..', 'front')
sys.path[:0] = [os.path.dirname(os.path.dirname(HERE)), HERE, FRONT]
import harness
import model
import plain

# the words that are no identifiers here, by their codes (6.4.1, 6.10.9, 6.4.2.2)
LEFT_OUT = {601: 'float double _Complex _Imaginary', 602: 'struct union typedef', 603: 'goto',
            604: 'volatile restrict _Atomic _Thread_local auto register', 605: 'inline _Noreturn _Alignas _Alignof _Generic', 608: '_Pragma __func__'}
CODE_OF_WORD = {word: code for code, words in LEFT_OUT.items() for word in words.split()}
INTEGER = re.compile(r'(0[xX][0-9a-fA-F]+|0[0-7]*|[1-9][0-9]*)([uU]?(?:ll?|LL?)?|(?:ll?|LL?)[uU]?)')
ESCAPE = re.compile(r'\\(?:([0-7]{1,3})|x([0-9a-fA-F]+)|([\'"?\\abfnrtv])|([uU])|(.?))', re.S)

# So many sources of each kind are taken.
COUNTS = {'by hand': 28, 'standard': 11, 'random': 300, 'zlib': 1, 'lua': 1, 'musl': 1, 'rules': 33, 'faults': 92, 'variadic': 118, 'sets': 93, 'conditions': 261,
          'front': 1093}

# 1,048,576 tokens of `f`, as many as there may be
MILLION = '#define a ' + ';' * 32 + '\n' + ''.join(f'#define {name} ' + f'{of} ' * 7 + of + '\n' for of, name in zip('abcde', 'bcdef'))
POWERS = ''.join(f'#define c{i} ' + ' '.join([f'c{i - 1}' if i > 1 else 'x'] * 16) + '\n' for i in range(1, 6))

# Sources by hand, with what is wanted of each.
BY_HAND = [
    ('', 'same, 0 tokens, 0 C tokens'),
    ('int x = 08;\n#if\n', 'same, fault 221 at 2'),
    ('int x = 08;\nint y;\n', 'same, 8 tokens, fault 301 at 1'),
    ('int x;\n08\n', 'same, 4 tokens, fault 301 at 2'),
    ('int x = 08; int y = \'\\400\';\n', 'same, 10 tokens, fault 301 at 1'),
    ('08 "a"\n"b"\n#error e\n', 'same, fault 234 at 3'),
    ('#line 40 "other.c"\nint x = 08;\n', 'same, 5 tokens, fault 301 at 40'),
    # a macro is refused behind tokens of its run, and of the run before
    ('#define f(a) a\nint x;\nint y = f(1, 2);\n', 'same, fault 212 at 3'),
    ('#define j(a, b) a ## b\nint x;\n#undef x\nint y;\nj(1, 2) j(+, *)\n', 'same, fault 206 at 5'),
    ('#define j(a, b) a ## b\n08 j(+, *)\n', 'same, fault 206 at 2'),
    ('#define f(a) a\nf(1) f(2) f(3) f\n', 'same, fault 213 at 2'),
    # a call is open at the end of the file, or of its run
    ('#define f(a) a\nint x;\nf(1\n', 'same, fault 211 at 3'),
    ('#define f(a) a\nint x; f((1),\n2\n#define g\n)\n', 'same, fault 211 at 2'),
    # literals are joined over macros, lines and runs
    ('#define s "b"\n"a" s "c" x\n"d" s\n', 'same, 6 tokens, 3 C tokens'),
    ('#define e\n"a" e "b"\n"c"\n', 'same, 3 tokens, 1 C tokens'),
    ('"a"\n#define n 1\n"b" n "c"\n#undef n\n"d" n\n', 'same, 6 tokens, 4 C tokens'),
    ('"a"\n#if 0\nx\n#endif\n"b"\n', 'same, 2 tokens, 1 C tokens'),
    ('"a" "\\q"\n"b"\n', 'same, 3 tokens, fault 302 at 1'),
    ('"a"\n"\\400"\n', 'same, 2 tokens, fault 303 at 2'),
    ('"a"\n08\n"b"\n', 'same, 3 tokens, fault 301 at 2'),
    # a conditional is open at the end, once all is done
    ('#if 1\nint x;\n', 'same, fault 231 at 1'),
    ('int x;\n#endif\n', 'same, fault 231 at 2'),
    # far more tokens stand in between than may come of it
    (MILLION + '#define h(x)x\nh(f f f)\n', 'same, fault 708 at 8'),
    (MILLION + '#line f f f\n', 'same, fault 235 at 7'),
    (MILLION + '#include f f f\n', 'same, fault 233 at 7'),
    (MILLION + '#if f f f\n#endif\n', 'same, fault 221 at 7'),
    (POWERS + '#define nop(x)\n#define use(x) nop(x)\nuse(c5 c5 c5)\nint main(void) { return 0; }\n', 'same, 10 tokens, 10 C tokens'),
    ('#define snd(x,y) y\n#define app(x) snd(x,)\n#define d(x) x x\napp(' + 'd(' * 21 + 'q' + ')' * 21 + ') done\n', 'same, 1 tokens, 1 C tokens'),
]


def code_of_elements(text):
    """What is wrong between the quotes of a literal, and how many elements stand there. 607 comes first, then 302."""
    found, count, at = set(), 0, 0
    while at < len(text):
        count += 1
        escape = ESCAPE.match(text, at)
        if not escape:
            found |= {302} if not (text[at] == '\t' or ' ' <= text[at] <= '~') else set()
            at += 1
            continue
        octal, hexadecimal, _, universal, other = escape.groups()
        value = int(octal, 8) if octal else int(hexadecimal, 16) if hexadecimal else 0
        found |= {303} if value > 255 else set()
        found |= {607} if universal else {302} if other is not None else set()
        at = escape.end()
    return next((code for code in (607, 302, 303) if code in found), None), count


def code_of(spelling):
    """The code of a preprocessing token that is no C token of this profile, or None."""
    kind = model.kind_of(spelling)
    if kind == 'name':
        return CODE_OF_WORD.get(spelling)
    if kind == 'number':
        integer = INTEGER.fullmatch(spelling)
        if integer:
            digits, suffix = integer.group(1), integer.group(2).lower()
            value = int(digits, 16 if digits[:2] in ('0x', '0X') else 8 if digits[0] == '0' else 10)
            most = 4294967295 if 'u' in suffix or digits[0] == '0' else 2147483647
            return 303 if value >= 1 << 64 else 609 if 'll' in suffix or value > most else None
        is_hexadecimal = spelling[:2] in ('0x', '0X')
        is_floating = '.' in spelling or any(sign in spelling for sign in ('pP' if is_hexadecimal else 'eE'))
        return 606 if is_floating else 301
    if kind == 'char':
        if spelling[0] != "'":
            return 607
        code, count = code_of_elements(spelling[1:-1])
        return 607 if count != 1 else code
    if kind == 'string':
        return 607 if spelling[0] != '"' else code_of_elements(spelling[1:-1])[0]
    return None if kind == 'punct' else 301


def told(spellings, line_of):
    """What is wanted of tokens, where line_of tells the line of the token with an index, or None; None where that is needed."""
    for index, spelling in enumerate(spellings):
        code = code_of(spelling)
        if code:
            line = line_of(index)
            return line and f'same, {len(spellings)} tokens, fault {code} at {line}'
    kinds = [model.kind_of(spelling) == 'string' for spelling in spellings]
    joined = sum(this and before for before, this in zip(kinds, kinds[1:]))
    return f'same, {len(spellings)} tokens, {len(spellings) - joined} C tokens'


def fault(line):
    found = re.fullmatch(r'.*:(\d+): (\d+) .*', line.strip())
    return f'same, fault {found.group(2)} at {found.group(1)}'


def text_lines(source):
    """The lines of a source that are no directives and have tokens, as far as it has lines at all."""
    try:
        lines = plain.scanned(source.encode('latin-1'))
    except plain.Fault:
        return []
    return [line for line in lines if line and line[0][1] not in (b'#', b'%:')]


def lines_of(source, spellings):
    """Tells the line of a token by its index, or None."""
    lines = text_lines(source)
    places = {token[2] for line in lines for token in line}
    marks = {line[0][1].decode('latin-1'): line[0][2] for line in lines if line[0][1].startswith(b'"use ') and len({token[2] for token in line}) == 1}

    def line_of(index):
        if len(places) == 1:
            return places.copy().pop()
        before = [spelling for spelling in spellings[:index + 1] if spelling in marks]
        if before and len(marks) == len(lines):
            return marks[before[-1]]
        try:
            found = model.Preprocessor('main.c').run(source)
        except model.Fault:
            return None
        return found[index].line if [token.text for token in found] == spellings else None
    return line_of


def expected(source, tokens):
    spellings = model.spellings(tokens)
    return told(spellings, lines_of(source, spellings))


def blocks(name):
    """The sources of a file of blocks: `=== NAME`, the source, `--- tokens` or `--- fault` and what is expected."""
    with open(os.path.join(HERE, name), encoding='latin-1', newline='') as file:
        for block in re.split(r'^=== .*\n', file.read(), flags=re.M)[1:]:
            source, kind, answer = re.fullmatch(r'(.*?)^--- (tokens|fault)\n(.*)', block, re.S | re.M).groups()
            yield source, fault(answer) if kind == 'fault' else expected(source, answer)


def sets():
    """The sets that are one file, which is called row.c here."""
    with open(os.path.join(HERE, 'sets.txt'), encoding='ascii') as file:
        parts = file.read().replace('\n\\ no newline at the end\n', '').split('===\n')[1:]
    for part in parts:
        source, answer = re.fullmatch(r'(.*)--- ?([^\n]*)\n', part.replace('main.c', 'row.c'), re.S).groups()
        if not re.search(r'^\$ ', source, re.M):
            is_fault = re.fullmatch(r'[^ ]+:\d+: \d+ .*', answer)
            yield source, fault(answer) if is_fault else expected(source, answer)


def conditions():
    """Those with a value are one source, as in check.py; each fault is a source of its own."""
    with open(os.path.join(HERE, 'conditions.txt'), encoding='ascii') as file:
        lines = file.read().splitlines()
    prelude = [line for line in lines if line.startswith('#define ')]
    rows = [line.split(' | ', 1) for line in lines if re.match(r'\d+ \| ', line)]
    valued, tokens = list(prelude), []
    for value, text in rows:
        if value in '01':
            n = len(tokens) + 1
            valued += [f'#if {text}', f'"use {n}" 1', '#else', f'"use {n}" 0', '#endif']
            tokens.append(f'"use {n}" {value}')
        else:
            yield '\n'.join([*prelude, f'#if {text}', '#endif', '']), f'same, fault {value} at {len(prelude) + 1}'
    yield '\n'.join(valued) + '\n', told(model.spellings(' '.join(tokens)), lambda index: None)


def front(name):
    return harness.fields(os.path.join(FRONT, name))


def scanned(text, code=None):
    """What is wanted of a text without directives; `code` is that of the row, which has to be the one found here. None for others."""
    try:
        lines = plain.scanned(text)
    except plain.Fault as it:
        return 'same, fault %d at %d' % it.args
    if any(line and line[0][1] in (b'#', b'%:') or any(re.match(rb'__(?!func__$)', token[1]) for token in line) for line in lines):
        return None
    tokens = [token for line in lines for token in line]
    found = told([token[1].decode('latin-1') for token in tokens], lambda index: tokens[index][2])
    assert code is None or f'fault {code} at 1' in found, (text, code, found)
    return found


def texts():
    for name in ('texts', 'trigraphs', 'parts'):
        for row in front(name):
            yield row[0].decode('latin-1'), scanned(row[0])
    for text, code, line in front('faults'):
        found = scanned(text)
        assert found is None or found.endswith(f'fault {int(code)} at {int(line)}'), (text, found)
        yield text.decode('latin-1'), found
    for name in ('words', 'integer_constants', 'character_constants', 'numbered_characters', 'faulty_lines'):
        for row in front(name):
            found = scanned(row[0] + b'\n', int(row[1]) if row[1].isdigit() else None)
            assert found is None or row[1].isdigit() or found.endswith(', 1 C tokens'), (row, found)
            yield row[0].decode('latin-1') + '\n', found
    for row in front('strings'):
        found = scanned(row[0] + b'\n')
        assert found.endswith(', 1 C tokens'), (row, found)
        yield row[0].decode('latin-1') + '\n', found
    for row in front('programs'):
        found = scanned(row[0])
        assert found.endswith(f', {len(row[1].split(b"@")) - 1} C tokens'), (row, found)
        yield row[0].decode('latin-1'), found


def rows():
    """All sources with what is wanted, and how many of each kind are left out."""
    of_their_own = {'by hand': lambda: BY_HAND, 'sets': sets, 'conditions': conditions, 'front': texts}
    found, left_out = [], {}
    for name, count in COUNTS.items():
        all_of_them = list(of_their_own[name]() if name in of_their_own else blocks(name + '.txt'))
        taken = [(source, wanted) for source, wanted in all_of_them if '@' not in source and wanted is not None]
        assert len(taken) == count, (name, len(taken))
        left_out[name] = len(all_of_them) - count
        found += taken
    return found, left_out


def row(source):
    """The row of a source."""
    return harness.row_of('stream', source.encode('latin-1'))


def streams():
    for source, wanted in rows()[0]:
        yield row(source), wanted.encode()


# so many rows there are
KINDS = [(streams, sum(COUNTS.values()))]
