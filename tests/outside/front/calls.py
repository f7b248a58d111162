#!/usr/bin/env python3
"""The rows of crates/test_calls that are made of the rows here and of tests/outside/const; `../rows.py` writes them.

What is wanted is what the rows say; of each text's tokens the kinds, places and white space are those of plain.py, whose
spellings have to be the rows'. The texts of faults are those of docs/DIAGNOSTICS.md.
"""
import os
import re
import sys

HERE = os.path.dirname(os.path.abspath(__file__))
ROOT = os.path.join(HERE, '..', '..', '..')
sys.path[:0] = [os.path.dirname(os.path.dirname(HERE)), os.path.join(HERE, '..', 'const'), HERE]
import harness
import plain
from harness import field_of as field

TYPES = {'_Bool': 'Bool', 'char': 'Char', 'signed char': 'SChar', 'unsigned char': 'UChar', 'short': 'Short', 'unsigned short': 'UShort', 'int': 'Int',
         'unsigned int': 'UInt', 'long': 'Long', 'unsigned long': 'ULong'}
# the letters by which the crate takes types and operators
LETTERS = {b'Bool': b'b', b'Char': b'c', b'SChar': b'a', b'UChar': b'h', b'Short': b's', b'UShort': b't', b'Int': b'i', b'UInt': b'j', b'Long': b'l', b'ULong': b'm'}
SIGNS = {b'Mul': b'*', b'Div': b'/', b'Rem': b'%', b'Add': b'+', b'Sub': b'-', b'Shl': b'L', b'Shr': b'R', b'Less': b'<', b'Greater': b'>', b'LessEqual': b'l',
         b'GreaterEqual': b'g', b'Equal': b'=', b'NotEqual': b'!', b'BitAnd': b'&', b'BitXor': b'^', b'BitOr': b'|'}

# what heads of constant expressions declare, as the crate takes it
HEADS = {
    '': [],
    "enum t { A = 3, B, C = -2, D = 'z' }; char c; short s[3]; unsigned long m[2][5]; _Bool b;\n":
        ['A value 3', 'B value 4', 'C value -2', 'D value 122', 't tag', 'c object c', 's object s 3', 'm object m 2 5', 'b object b'],
    'char s[3];\n': ['s object c 3'],
    'enum { A = -1, B, C };\n': ['A value -1', 'B value 0', 'C value 1'],
    'enum t { A };\n': ['A value 0', 't tag'],
    'enum t { A = -1 };\n': ['A value -1', 't tag'],
}


def messages():
    with open(os.path.join(ROOT, 'docs/DIAGNOSTICS.md'), encoding='utf-8') as table:
        rows = [line[2:].split(' | ') for line in table if re.match(r'\| \d+ \|', line)]
    return {int(row[0]): row[1].encode() for row in rows}


MESSAGES = messages()


def fault_line(code, line):
    return b'a.c:%d: %d %s' % (line, code, MESSAGES[code])


def rows(name):
    return harness.fields(os.path.join(HERE, name))


def text_row(text, spellings=None):
    """A text and its tokens, or the line of its fault."""
    try:
        lines = plain.scanned(text)
    except plain.Fault as fault:
        return b'text\t' + field(text), fault_line(*fault.args)
    if spellings is not None:
        assert b''.join(b''.join(token[1] + b' ' for token in line) + b'\n' for line in lines) == spellings, text
    parts = [b'%s:%s:%d%s ' % (kind.encode(), field(spelling), at, b':space' if space else b'') for line in lines for kind, spelling, at, space in line + [('', b'', 0, 0)]]
    return b'text\t' + field(text), b''.join(parts).replace(b'::0 ', b'\\n')


def texts():
    for name in ('texts', 'trigraphs'):
        for row in rows(name):
            yield text_row(row[0], row[1] if len(row) > 1 else b'')
    for row in rows('parts'):
        given, wanted = text_row(row[0])
        assert wanted.replace(b'\\n', b'') == row[1], row
        yield given, wanted
    yield b'lines\ta b\\n\\nc\\n', b'Other:@:2:space 1 3 false 3 3'


def tokens():
    for row in rows('faults'):
        yield b'tokens\t' + field(row[0]), fault_line(int(row[1]), int(row[2]))
    for name in ('words', 'integer_constants', 'character_constants', 'numbered_characters', 'faulty_lines'):
        for row in rows(name):
            wanted = fault_line(int(row[1]), 1) if row[1].isdigit() else row[1] + b'@1 '
            yield b'tokens\t' + field(row[0] + b'\n'), wanted
    for row in rows('strings'):
        yield b'tokens\t' + field(row[0] + b'\n'), b'StringLiteral(1)@1 \t' + field(row[1])
    for row in rows('programs'):
        yield b'tokens\t' + field(row[0]), row[1] + b' \t' + b'\t'.join(field(text) for text in row[2].split(b' '))


def arithmetic():
    for name in ('operations', 'worked_operations'):
        for row in rows(name):
            yield b'\t'.join([b'operation', LETTERS[row[0]], row[1], SIGNS[row[2]], LETTERS[row[3]], row[4]]), b' '.join(row[5:])
    for row in rows('conversions'):
        yield b'\t'.join([b'conversion', LETTERS[row[0]], row[1]]), b'%s %s' % (row[2], b'true' if row[1] == row[2] else b'false')
    for row in rows('types'):
        yield b'type\t' + LETTERS[row[0]], b' '.join([*row[1:5], b'true' if row[5] == b'signed' else b'false'])
    for left, right, alike, greater, common in rows('pairs_of_types'):
        told = [alike == b'compatible', greater == b'second', greater == b'first']
        yield b'\t'.join([b'pair', LETTERS[left], LETTERS[right]]), b' '.join([b'true' if it else b'false' for it in told] + [common])


def constants():
    """The constant expressions with a value, and what their heads declare."""
    import check as const_rows
    for source, wanted in const_rows.rows():
        if wanted.startswith('main.c:'):
            continue
        head, text = re.fullmatch(r'(.*?)(enum \{ e = .* \};\n)', source, re.S).groups()
        of, value = wanted.rsplit(' ', 1)
        yield harness.row_of('constant', text, *HEADS[head]), f'{TYPES[of]} {value}'.encode()


def shape(text):
    try:
        lines = plain.scanned(text)
    except plain.Fault as fault:
        return fault_line(*fault.args)
    found = b''
    for line in lines:
        for kind, spelling, at, space in line:
            name = b'ab' if spelling == text[:2] else b'a' if spelling == text[:1] else b'b' if spelling == text[1:2] else field(spelling)
            found += b'%s:%s:%d:%s ' % (name, kind.encode(), at, b'true' if space else b'false')
        found += b'|'
    return found


def twos():
    """Texts of two bytes: of each first byte what they come to, where that is another than for the second byte before."""
    for first in range(256):
        for behind in (b'', b'\n'):
            before, wanted = b'', b''
            for second in range(256):
                text = bytes([first, second]) + behind
                found = shape(text)
                if found != before:
                    wanted += field(text) + b' ' + found + b'\t'
                before = found
            yield harness.row_of('twos', bytes([first]), behind), wanted


# so many rows there are of each
KINDS = [(texts, 162), (tokens, 946), (arithmetic, 313), (constants, 224), (twos, 512)]
