#!/usr/bin/env python3
"""Holds the program to each limit, at it and one past it, and to files that are cut or wrong.

    python3 tests/outside/limits/check.py bin/cc

What each row comes to follows from the rules of the language and of the file (docs/LANGUAGE.md, docs/DIAGNOSTICS.md, docs/TOOLS.md).
Time and greatest memory are printed beside each, and not judged.
The last line is 'N passed, M failed'."""
import os
import re
import sys

sys.path.insert(0, os.path.join(os.path.dirname(os.path.abspath(__file__)), '..', '..'))
import harness
from harness import elf

MAIN = 'int main(void) { return 0; }\n'


def body(text):
    return 'int main(void) { ' + text + ' }\n'


def tower(name, first, times, by):
    """Macros NAME0 to NAMEn, each of so many of the one before."""
    lines = [f'#define {name}0 {first}\n']
    lines += [f'#define {name}{i} ' + ' '.join([f'{name}{i - 1}'] * by) + '\n' for i in range(1, times + 1)]
    return ''.join(lines)


def times(count):
    """The names of a tower of tens that come to so many."""
    digits = str(count)[::-1]
    return ' '.join(f't{place}' for place, digit in enumerate(digits) for _ in range(int(digit)))


def nested(count):
    """A main file that opens so many files in one another."""
    files = {f'{i}.h': f'#include "{i + 1}.h"\n' for i in range(1, count)}
    files[f'{count}.h'] = 'x\n'
    files['main.c'] = '#include "1.h"\n'
    return files


def replaced(last):
    lines = '#define a0\n' + ''.join(f'#define a{k} a{k - 1} a{k - 1}\n' for k in range(1, 20))
    return lines + 'a19\n#undef q\n' + last + '\n'


ASSERTED = tower('t', '_Static_assert(1, "");', 5, 10)
TOKENS = '#define c1' + ' x' * 16 + '\n' + ''.join(f'#define c{k}' + f' c{k - 1}' * 16 + '\n' for k in range(2, 6))

# the command; files, or the main one; what it comes to: a code, or the status of what was built and run, or None (it prints)
ROWS = [
    ('bytes of a file', 'build', MAIN + ' ' * (1048576 - len(MAIN) - 1) + '\n', 0),
    ('bytes of a file, past', 'build', MAIN + ' ' * (1048576 - len(MAIN)) + '\n', '701'),
    ('files', 'pp', {'main.c': MAIN} | {f'{i}.h': '\n' for i in range(255)}, None),
    ('files, past', 'pp', {'main.c': MAIN} | {f'{i}.h': '\n' for i in range(256)}, '702'),
    ('a spelling', 'pp', 'a' * 4095 + '\n', None),
    ('a spelling, past', 'pp', 'a' * 4096 + '\n', '703'),
    ('macros', 'pp', ''.join(f'#define a{i:x}\n' for i in range(65536)), None),
    ('macros, past', 'pp', ''.join(f'#define a{i:x}\n' for i in range(65537)), '704'),
    ('parameters', 'pp', '#define f(' + ','.join(f'p{i}' for i in range(127)) + ') p126\nf(' + ','.join(['1'] * 127) + ')\n', None),
    ('parameters, past', 'pp', '#define f(' + ','.join(f'p{i}' for i in range(128)) + ') p126\n', '705'),
    ('arguments of an ellipsis', 'pp', '#define f(a, ...) a\nf(' + ','.join(['1'] * 128) + ')\n', None),
    ('replacements', 'pp', replaced('a0'), None),
    ('replacements, past', 'pp', replaced('a0 a0'), '706'),
    ('files in one another', 'pp', nested(32), None),
    ('files in one another, past', 'pp', nested(33), '707'),
    ('a file that includes itself', 'pp', '#include "main.c"\n', '707'),
    ('conditionals', 'pp', '#if 1\n' * 127 + '#endif\n' * 127, None),
    ('conditionals, past', 'pp', '#if 1\n' * 128 + '#endif\n' * 128, '707'),
    ('tokens', 'pp', TOKENS + 'c5\n', None),
    ('tokens, past', 'pp', TOKENS + 'c5 x\n', '708'),
    ('tokens as an argument', 'pp', TOKENS + '#define f(x) x\nf(c5)\n', None),
    ('depth', 'build', body('return ' + ' + '.join(['1'] * 253) + ';'), 253),
    ('depth, past', 'build', body('return ' + ' + '.join(['1'] * 254) + ';'), '709'),
    ('ten thousand parentheses', 'build', body('return ' + '(' * 10000), '709'),
    ('a condition of parentheses', 'pp', '#if ' + '(' * 500000 + '\n', '221'),
    ('if in if', 'build', body('if (1) ' * 300 + ';'), '709'),
    ('nodes of a function', 'build', body(';' * 7996 + 'return 0;'), 0),
    ('nodes of a function, past', 'build', body(';' * 7997 + 'return 0;'), '710'),
    ('nodes of a program', 'build', ASSERTED + times(131070) + '\n' + MAIN, 0),
    ('nodes of a program, past', 'build', ASSERTED + times(131071) + '\n' + MAIN, '711'),
    ('bytes of an object', 'build', 'char a[1048576];\n' + MAIN, 0),
    ('bytes of an object, past', 'build', 'char a[1048577];\n' + MAIN, '712'),
    ('bytes of an element, past', 'build', 'int f(char a[][1048577]);\n' + MAIN, '712'),
    ('bytes of a type name, past', 'build', body('return (int)sizeof(char[1048577]);'), '712'),
    ('bytes of statics', 'build', ''.join(f'char a{i}[1048576];\n' for i in range(16)) + MAIN, 0),
    ('bytes of statics, past', 'build', ''.join(f'char a{i}[1048576];\n' for i in range(16)) + 'char b;\n' + MAIN, '713'),
    ('weight', 'build', body('char a[1048416]; return 0;'), 0),
    ('weight, past', 'build', body('char a[1048417]; return 0;'), '714'),
    ('functions', 'build', ''.join(f'int f{i}(void) {{ return 0; }}\n' for i in range(16383)) + MAIN, 0),
    ('functions, past', 'build', ''.join(f'int f{i}(void) {{ return 0; }}\n' for i in range(16384)) + MAIN, '715'),
]

TEXT, DATA, STACK = 0, 1, 2
# Fields of the file of `int main(void) { return 42; }` that are changed: the offset, the new bytes; the code of the fault.
CHANGES = [
    ('64 bits', elf.at('class'), b'\x02', '902'), ('a shared object', elf.at('type'), b'\x03', '903'), ('another machine', elf.at('machine'), b'\xf2', '904'),
    ('no program headers', elf.at('phnum'), b'\x00', '905'), ('data at the place of the text', elf.at('vaddr', DATA), b'\x00\x10\x01\x00', '906'),
    ('a stack of 128 MiB', elf.at('memsz', STACK), b'\x00\x00\x00\x08', '907'), ('a stack past the end', elf.at('memsz', STACK), b'\x01\x00\x10\x80', '906'),
    ('a stack to the end', elf.at('memsz', STACK), b'\x00\x00\x10\x80', '907'),
    ('no entry', elf.at('entry'), b'\x00\x00\x00\x00', 'cc: trap FetchFault at 0x00000000'),
    ('an odd entry', elf.at('entry'), b'\x02\x10\x01\x00', 'cc: trap Target at 0x00011002'),
]


def code_of(done):
    """The code of the fault that was told, None where there was none."""
    found = re.match(r'[^:]*(?::\d+)?: (\d{3}) ', done.line)
    return None if done.status == 0 else found.group(1) if found else done.line


def measured(case, *words):
    """A run within 4 GB, whose time and memory are printed, and not judged."""
    done = case.program.measured(*words, memory=4 << 30)
    print(f'{case.name()}: {done.line[:80]}; {done.seconds:.2f} s, {done.megabytes:.0f} MB', flush=True)
    return done


def held(case, command, files, wanted):
    files = files if isinstance(files, dict) else {'main.c': files}
    for name, text in files.items():
        case.program.write(name, text)
    names = ['main.c'] + [name for name in files if name != 'main.c']
    found = code_of(measured(case, command, *names, *(['-o', 'out'] if command == 'build' else [])))
    if isinstance(wanted, int) and found is None:
        found = measured(case, 'run', 'out').status
    case.expect('', found, wanted)


def built(case):
    """The bytes of the file of the smallest program."""
    case.program.write('main.c', body('return 42;'))
    case.program.run('build', 'main.c', '-o', 'out')
    return case.program.read('out')


def file_is(case, file, wanted):
    case.program.write('file', file)
    done = measured(case, 'run', 'file')
    if wanted.startswith('cc:'):
        case.expect('', (done.status, done.line), (125, wanted))
    else:
        case.expect('', (done.status, code_of(done)), (1, wanted))


def cut(case, length):
    """Cut to a length; below zero, to so many bytes less."""
    file = built(case)[:length]
    file_is(case, file, '901' if len(file) < elf.HEADER else '905')


def changed(case, offset, new, wanted):
    file_is(case, elf.changed(built(case), offset, new), wanted)


def cases(_):
    for name, *row in ROWS:
        yield harness.Row(name, held, *row)
    for length in (0, 1, 51, 52, 147, 148, -1):
        yield harness.Row(f'a file cut to {length} bytes', cut, length)
    for name, *row in CHANGES:
        yield harness.Row(name, changed, *row)


if __name__ == '__main__':
    sys.exit(harness.main(cases))
