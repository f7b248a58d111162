#!/usr/bin/env python3
"""check.py CC [macros | conditions]: macro replacement and conditions, by what others answer: README.md says where the data is from.

`pp` writes the tokens of a source with one space between, then a newline, or the line of a fault on standard error."""
import os
import re
import sys

HERE = os.path.dirname(os.path.abspath(__file__))
sys.path.insert(0, os.path.dirname(os.path.dirname(HERE)))
import harness

FILES = {'standard.txt': 12, 'random.txt': 300, 'zlib.txt': 1, 'lua.txt': 1, 'musl.txt': 1, 'rules.txt': 34, 'faults.txt': 92}
MOST = 1048576
FAULTS = {'221': '221 not a constant expression in #if', '222': '222 #if arithmetic out of range', '223': '223 defined made by a macro'}


def joined(text):
    """The lines of tokens, joined."""
    return ' '.join(line for line in text.split('\n') if line.strip())


def where(found, wanted):
    """The word at which two lines of tokens differ, and the last `"use N"` before it."""
    use = ''
    for number, (left, right) in enumerate(zip(found.split(' '), wanted.split(' '))):
        if right == '"use':
            use = ' '.join(wanted.split(' ')[number:number + 2])
        if left != right:
            return f'word {number + 1} is {left}, not {right}{", in " + use if use else ""}'
    return f'{found.count(" ") + 1} words, not {wanted.count(" ") + 1}'


def tokens(case, source, wanted):
    """The source has these tokens."""
    case.program.write('main.c', source)
    status, out, err = case.program.run('pp', 'main.c')
    found = out.decode('latin-1').removesuffix('\n')
    if (status, err) != (0, b'') or not out.endswith(b'\n'):
        case.expect('', (status, err[:200]), (0, b''))
    else:
        case.holds(where(found, wanted), found == wanted)


def fault(case, source, line):
    """The source is refused with this line, and nothing is written."""
    case.program.write('main.c', source)
    case.expect('', case.program.run('pp', 'main.c'), (1, b'', line.encode('latin-1') + b'\n'))


# ---- macros

def of_blocks(name):
    """Each block of the file: `=== NAME`, a source, `--- tokens` or `--- fault`, what is expected."""
    for head, text in harness.blocks(os.path.join(HERE, name)):
        source, kind, wanted = re.fullmatch(r'(.*?)^--- (tokens|fault)\n(.*)', text, re.S | re.M).groups()
        if kind == 'tokens':
            yield harness.Row(f'{name} {head}', tokens, source, joined(wanted))
        else:
            yield harness.Row(f'{name} {head}', fault, source, wanted.rstrip('\n'))


def each(form, first, last):
    """The form with each number."""
    return ''.join(form % number for number in range(first, last + 1))


ALL_MACROS = each('#define a%04x\n', 0, 65535)
# a19 takes 1,048,575 replacements; a line 22 stands behind it.
DOUBLED = '#define a0\n' + ''.join(f'#define a{k} a{k - 1} a{k - 1}\n' for k in range(1, 20)) + 'a19\n#undef q\n'


def parameters(count):
    return '#define f(p1' + each(',p%d', 2, count) + ') p1 + p127\nf(' + each('%d,', 1, count - 1) + f'{count}) ;\n'


def large():
    """The limits, at each and one past it; which of two faults is told."""
    # 65,536 macros, one more; the same again is no further one, and one that was undefined makes room
    room = ALL_MACROS + '#define a0007\n#undef a0100\n#define B b\na0000 B c\n'
    yield '65536 macros', tokens, room, 'b c'
    yield '65537 macros', fault, room + '#define C\n', 'main.c:65541: 704 limit: macros'
    yield '65536 macros, one redefined', fault, ALL_MACROS + '#define a0007 1\n', 'main.c:65537: 201 macro redefined differently'
    yield '204 before 704', fault, ALL_MACROS + '#define b ##\n', 'main.c:65537: 204 ## at an end of a replacement'
    # 127 parameters and arguments, one more
    yield '127 parameters', tokens, parameters(127), '1 + 127 ;'
    yield '128 parameters', fault, parameters(128), 'main.c:1: 705 limit: macro parameters'
    yield '128 arguments', fault, '#define f(a) a\n\nf(' + each('%d,', 1, 127) + ') ;\n', 'main.c:3: 705 limit: macro parameters'
    yield '127 arguments, not 1', fault, '#define f(a) a\nf(' + each('%d,', 1, 126) + ') ;\n', 'main.c:2: 212 wrong number of macro arguments'
    yield '211 before 705', fault, '#define f(a) a\nf(' + each('%d,', 1, 127) + '\n', 'main.c:2: 211 macro arguments not closed'
    yield '705 before 201', fault, '#define f 1\n#define f(p1' + each(',p%d', 2, 128) + ') 1\n', 'main.c:2: 705 limit: macro parameters'
    yield '204 before 705', fault, '#define f(p1' + each(',p%d', 2, 128) + ') p1 ##\n', 'main.c:1: 204 ## at an end of a replacement'
    # 1,048,576 replacements in the whole file, one more; then 706 before what would be told at the replacement
    yield '1048576 replacements', tokens, DOUBLED + 'a0\n', ''
    yield '1048577 replacements', fault, DOUBLED + 'a0 a0\n', 'main.c:23: 706 limit: macro replacements'
    yield 'a predefined name past the limit', fault, DOUBLED + 'a0\n__LINE__\n', 'main.c:24: 706 limit: macro replacements'
    joins = 'a0\n#define f(a, b) a##b\n'
    yield '706 before 206', fault, DOUBLED + joins + 'f(+,*)\n', 'main.c:25: 706 limit: macro replacements'
    yield '212 before 706', fault, DOUBLED + joins + 'f(+)\n', 'main.c:25: 212 wrong number of macro arguments'
    # 1,048,576 tokens, one more; what stands behind the limit is not looked at, what stands before it is
    most = '#define A ;;;;;;;;;;;;;;;;\n' + 'A A A A A A A A A A A A A A A A\n' * 4096
    yield '1048576 tokens', tokens, most, ' '.join([';'] * MOST)
    over = most + '\n#undef A\nx\n'
    yield '1048577 tokens', fault, over, 'main.c:4100: 708 limit: tokens'
    yield '708 before a later fault', fault, over + '#define 3\n', 'main.c:4100: 708 limit: tokens'
    lines = (over + '#define 3\n').split('\n')
    lines[4099] = 'x #\n#undef'
    lines[6] = '#define 3\n' + lines[6]
    yield 'an earlier fault before 708', fault, '\n'.join(lines), 'main.c:7: 202 bad macro definition'
    # calls in calls, 2,000 deep, and a name that is replaced by the next, 20,000 times
    yield 'calls 2000 deep', tokens, '#define g(a) (a)\n' + 'g(' * 2000 + 'x' + ')' * 2000 + ' ;\n', ' '.join(['('] * 2000 + ['x'] + [')'] * 2000 + [';'])
    yield 'a chain of 20000 macros', tokens, ''.join(f'#define a{i} a{i + 1}\n' for i in range(20000)) + 'a0 a19999 a20000\n', 'a20000 a20000 a20000'


def macros():
    for name, count in FILES.items():
        rows = list(of_blocks(name))
        yield from rows
        yield harness.number_of(name, len(rows), count)
    for name, *row in large():
        yield harness.Row(name, *row)


# ---- conditions

def conditions():
    """Those with a value are one source, in which each says its number where it holds; each fault is a source of its own."""
    with open(os.path.join(HERE, 'conditions.txt'), encoding='latin-1') as file:
        lines = file.read().split('\n')
    prelude = [line for line in lines if line.startswith('#define ')]
    rows = [line.split(' | ', 1) for line in lines if re.match(r'\d+ \| ', line)]
    valued = [(value, text) for value, text in rows if value in '01']
    source = '\n'.join(prelude) + '\n' + ''.join(f'#if {text}\n"use {n}" 1\n#else\n"use {n}" 0\n#endif\n' for n, (_, text) in enumerate(valued, 1))
    yield harness.Row('conditions with a value', tokens, source, ' '.join(f'"use {n}" {value}' for n, (value, _) in enumerate(valued, 1)))
    for code, text in rows:
        if code in FAULTS:
            yield harness.Row(f'#if {text}', fault, '\n'.join(prelude) + f'\n#if {text}\n#endif\n', f'main.c:{len(prelude) + 1}: {FAULTS[code]}')
    yield harness.number_of('conditions', (len(valued), len(rows)), (1740, 2000))


def cases(_, what='macros'):
    return {'macros': macros, 'conditions': conditions}[what]()


if __name__ == '__main__':
    sys.exit(harness.main(cases))
