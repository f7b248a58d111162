#!/usr/bin/env python3
"""Holds `--stack N` against its rows: `check.py CC`. The last line counts what passed and failed.

Forty programs of ../meaning, whose greatest sums of weights its rows tell, are made to weigh just so much by arrays in main that nothing uses: at each
of five stack sizes they are interpreted, built, run by `cc run`, by qemu-riscv32 where it is there, and listed; 16 bytes more in main are 714, or,
where the sum is of several calls, still a program. Without --stack each of 200 programs is built to the same bytes as with
--stack 1048576.
"""
import hashlib
import os
import re
import sys

HERE = os.path.dirname(os.path.abspath(__file__))
OUTSIDE = os.path.dirname(HERE)
sys.path[:0] = [os.path.dirname(OUTSIDE), os.path.join(OUTSIDE, 'interp')]
import harness
import rows
from harness import elf, ways

SIZES = (4096, 8192, 65536, 1048576, 16777216)
NO_SIZES = ('0', '1', '4095', '4097', '5000', '16777217', '16781312', '2147483648', '4294967296', '4294971392', '18446744073709551616', '-4096', 'x', '')
MOST_OBJECT = 1048576
COUNT, PROGRAMS = 40, 200
MAIN = 'int main(void) {'

# Of a program of 12 bytes of text and 16 of data: by hand from the gABI, chapter 5, "Program Header".
THIRD = '01000000 00000000 00F0FF7F 00F0FF7F 00000000 00100000 06000000 00100000'
RECURSION = 'int f(int n) { if (n == 0) return 0; return f(n - 1); } int main(void) { char pad[%d]; return f(%d); }'


def sized(case, source, stack):
    """A program with a stack of so many bytes."""
    return ways.Sources(case.program, source if source.endswith('\n') else source + '\n', stack=stack)


def meaning_rows():
    """Input, status, output, greatest sum and source of the programs of ../meaning that end."""
    found = []
    with open(os.path.join(OUTSIDE, 'meaning', 'programs.txt'), encoding='ascii') as file:
        for line in file:
            if line.startswith('=== '):
                _, given, run, output, _, greatest = [part.strip() for part in line[4:].split('|')]
                found.append([given, run, output, greatest, ''])
            elif found:
                found[-1][4] += line
    numbers = lambda text: b'' if text == '-' else bytes(int(word) for word in text.split())
    for given, run, output, greatest, source in found:
        if run.startswith('ended:') and source.count(MAIN) == source.count('main(') == 1 and int(greatest) <= SIZES[0] - 48:
            yield numbers(given), int(run.split(':')[1]), numbers(output), int(greatest), source


def padded(source, more):
    """The same program, whose main weighs so much more: each array is two nodes of 16 bytes, and its own bytes."""
    arrays = ''
    while more:
        bytes_of = min(more - 32, MOST_OBJECT)
        if 0 < more - 32 - bytes_of < 48:
            bytes_of -= 48
        arrays += ' char pad%d[%d];' % (len(arrays), bytes_of)
        more -= 32 + bytes_of
    return source.replace(MAIN, MAIN + arrays)


def calls(source):
    """Whether a function is defined beside main, so that the greatest sum is of more than main."""
    return re.search(r'\)\s*{', source[:source.index(MAIN)]) is not None


def at_and_over(case, row, stack):
    given, status, output, greatest, source = row
    program = sized(case, padded(source, stack - greatest), stack)
    if ways.four_ways(case, 'at', program, given, status, output):
        ways.listed(case, 'at', program)
        case.expect('header', program.file()[116:148], header(stack))
    program = sized(case, padded(source, stack - greatest + 16), stack)
    answers = [program.ask(*words) for words in (('build', '-o', 'program'), ('list',), ('interp',))]
    if calls(source):
        case.expect('one past, of several calls', answers[0], (0, b'', b''))
    else:
        case.expect('one past', [(answer[0], answer[1], answer[2].split(b' ')[1:2]) for answer in answers], [(1, b'', [b'714'])] * 3)
        case.expect('no file one past', program.file(), b'')


def header(stack):
    """The third program header (gABI, chapter 5): loadable, of no bytes of the file, for reading and writing, below 0x80000000."""
    return elf.Segment(0x80000000 - stack, 0, flags=elf.READ | elf.WRITE, memsz=stack).bytes()


def ends(case, source, stack, status, most=None):
    program = sized(case, source, stack)
    case.expect('build', program.build(), (0, b'', b''))
    case.expect('run', program.simulate(most=most), (status, b'', b''))
    if ways.QEMU:
        case.expect('qemu-riscv32', program.emulate(), (status, b'', b''))
    else:
        case.skip(1, 'qemu-riscv32 is missing')
    case.expect('interp', program.interpret(), (status, b'', b''))


def third_header(case):
    program = sized(case, MAIN + ' return 42; }', 4096)
    case.expect('build', program.build(), (0, b'', b''))
    case.expect('third header', program.file()[116:148], bytes.fromhex(THIRD))


def elements(case, number, code):
    program = sized(case, MAIN + ' char a[%d]; return 0; }' % number, 4096)
    for words in (('build', '-o', 'program'), ('list',), ('interp',)):
        status, _, line = program.ask(*words)
        case.expect(words[0], (status, line.split(b' ')[1:2]), (len(code), code))


def no_size(case, size):
    program = sized(case, MAIN + ' return 0; }', size)
    for words in (('build', '-o', 'program'), ('list',), ('interp',)):
        status, text, line = program.ask(*words)
        case.expect(words[0], (status, text, line != b''), (2, b'', True))
    case.expect('a file was made', program.file(), b'')


def no_option(case):
    program = sized(case, MAIN + ' return 0; }', 4096)
    case.expect('pp has no --stack', program.ask('pp')[0], 2)
    case.expect('run has no --stack', program.ask('run')[0], 2)


def single_rows():
    yield 'third header', third_header
    # 448 + 12 * 304 and 368 + 55187 * 304
    yield 'sum of 4096', ends, RECURSION % (272, 11), 4096, 0
    yield 'sum of 16777216', ends, RECURSION % (192, 55186), 16777216, 0
    yield '3936 elements', elements, 3936, []
    yield '3937 elements', elements, 3937, [b'714']
    # 64 n + 64 instructions for 4 ticks, and for 24
    for stack in SIZES:
        yield f'320 instructions with {stack} bytes', ends, MAIN + ' return 42; }', stack, 42, 320
        yield f'1600 instructions with {stack} bytes', ends, MAIN + ' int i; for (i = 0; i < 2; i++) ; return i; }', stack, 2, 1600
    for size in NO_SIZES:
        yield f'--stack {size!r}', no_size, size
    yield 'commands without --stack', no_option


def usual_programs():
    """Two hundred programs kept in other folders, with their further files."""
    found = []
    for folder, name in (('scalars', 'by_hand.txt'), ('scalars', 'arrays.txt'), ('interp', 'by_hand.txt')):
        found += [('%s/%s' % (folder, row.name), row.source, row.files) for row in rows.read(os.path.join(OUTSIDE, folder, name))]
    return found[:PROGRAMS]


def digest(case, source, files, stack=None):
    program = ways.Sources(case.program, source, files, stack)
    answer = program.build()
    return hashlib.sha256(program.file()).hexdigest() if answer[0] == 0 else repr(answer)


def usual_bytes(case, source, files):
    case.expect('--stack 1048576', digest(case, source, files, 1048576), digest(case, source, files))


def cases(_):
    for name, *row in single_rows():
        yield harness.Row(name, *row)
    chosen = list(meaning_rows())[:COUNT]
    yield harness.number_of('programs of ../meaning', len(chosen), COUNT)
    for number, row in enumerate(chosen):
        for stack in SIZES:
            yield harness.Row(f'program {number} with {stack} bytes', at_and_over, row, stack)
    for name, source, files in usual_programs():
        yield harness.Row('usual ' + name, usual_bytes, source, files)


if __name__ == '__main__':
    sys.exit(harness.main(cases))
