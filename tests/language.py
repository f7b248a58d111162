#!/usr/bin/env python3
"""Holds the program to docs/LANGUAGE.md: types, headers, what is left out, each limit at it and one past it, and the
programs with the output that the page shows.

    python3 tests/language.py [CC]       by the compiler, bin/cc by default
    python3 tests/language.py --host     the same sources by gcc, from which the page's outputs are

Called from the repository's root. The last line counts the checks."""
import os, re, struct, subprocess, sys, tempfile

import harness
from harness import ways

PAGE = open('docs/LANGUAGE.md').read()
MAIN = 'int main(void) { return 0; }\n'
HOST = ['gcc', '-std=c11', '-w', '-funsigned-char', '-I', 'host']
verdict = harness.Verdict()
holds = verdict.holds

def put(name, text):
    if os.path.dirname(name):
        os.makedirs(os.path.dirname(name), exist_ok=True)
    with open(name, 'wb') as f:
        f.write(text if isinstance(text, bytes) else text.encode())

def run(*words, **more):
    done = subprocess.run(words, stdout=subprocess.PIPE, stderr=subprocess.PIPE, stdin=subprocess.DEVNULL, **more)
    return done.returncode, done.stdout.decode('latin-1'), done.stderr.decode('latin-1')

# ----------------------------------------------------------------- the page

def rows(columns):
    """The rows of the page's table with these columns."""
    lines = PAGE.split('| ' + ' | '.join(columns) + ' |\n')[1].split('\n')[1:]
    found = []
    for line in lines:
        if not line.startswith('|'):
            break
        found.append([cell.strip() for cell in line.strip('|').split(' | ')])
    return found

def code_in(cell):
    return re.findall(r'`([^`]+)`', cell)

def programs():
    """The files that the page shows, and the commands behind them, each with its output."""
    files = dict(re.findall(r'\*\*([a-z]+\.[ch])\*\*\n\n```c\n(.*?)```\n', PAGE, re.S))
    told = re.findall(r'^    \$ (.*)\n((?:    [^$].*\n)*)', PAGE, re.M)
    return files, [(command, output.replace('\n    ', '\n')[4:]) for command, output in told]

# --------------------------------------------------------- by the compiler

def code_of(cc, source, *more, command='build'):
    """The code of the fault of a source, or None where there is none."""
    put('main.c', source)
    end = ['-o', 'made'] if command == 'build' else []
    status, _, said = run(cc, command, 'main.c', *more, *end)
    told = re.match(r'[^ ]*: ([0-9]+) ', said)
    return told.group(1) if told else None if status == 0 else 'status %d: %s' % (status, said.strip())

def types(cc):
    for name, size, least, greatest in rows(['Type', 'Bytes', 'From', 'To']):
        put('main.c', MAIN)
        name, = code_in(name)
        is_signed = code_of(cc, '_Static_assert((%s)-1 < 0, "");\n' % name + MAIN) is None
        has_size = code_of(cc, '_Static_assert(sizeof(%s) == %s, "");\n' % (name, size) + MAIN) is None
        bits = 1 if name == '_Bool' else 8 * int(size)
        wanted = (-2 ** (bits - 1), 2 ** (bits - 1) - 1) if is_signed else (0, 2 ** bits - 1)
        holds('the type ' + name, has_size and (int(least), int(greatest)) == wanted)

def headers(cc):
    for header, names in rows(['Header', 'What it has']):
        include = '#include %s\n#include "%s"\n' % (code_in(header)[0], code_in(header)[0].strip('<>'))
        asked = ''.join('#ifndef %s\n#error\n#endif\n' % name for name in code_in(names))
        holds(header, code_of(cc, include + asked + MAIN) is None and (not asked or code_of(cc, asked + MAIN) == '234'))
    for function, _ in rows(['Function', 'What it does']):
        declared, = code_in(function)
        holds(declared, code_of(cc, '#include <rvio.h>\n%s;\n' % declared + MAIN) is None)

def left_out():
    """Each source that has a form which is left out, with its fault."""
    for _, cell, code, _ in rows(['Left out', 'A source that has it', 'Fault', 'Instead']):
        source = '\n'.join(code_in(cell)) + '\n'
        yield source if 'main(' in source else source + MAIN, code

def by_compiler(cc):
    types(cc)
    headers(cc)
    for source, code in left_out():
        told = code_of(cc, source)
        holds('%r: %s, not %s' % (source, told, code), told == code)
    limits(cc)
    files, commands = programs()
    for name, text in files.items():
        put(name, text)
    for command, output in commands:
        for way in ['run', 'interp'] if ' run ' in command or command.startswith('zkc run') else ['build']:
            asked = re.sub(r'\bzkc\b', lambda _: cc, command)
            if way == 'interp':
                asked = re.sub(r' run ([a-z]+)', lambda m: ' interp ' + sources(m.group(1), commands), asked)
            _, said, wrong = run('sh', '-c', asked)
            holds('%s: %r, %r' % (asked, said, wrong), said == output and wrong == '')

def sources(program, commands):
    """The files that the page builds a program from."""
    return next(re.match(r'zkc build (.*) -o', c).group(1) for c, _ in commands if c.endswith('-o ' + program))

# -------------------------------------------------------------- the limits

def body(statements):
    """A main of so many nodes beside its own and its block's."""
    return 'int main(void) {' + ';' * statements + '}\n'

def functions(nodes):
    """Functions of 8,000 nodes and one of the rest, together of so many."""
    whole, rest = divmod(nodes, 8000)
    return ''.join('void f%d(void) {%s}\n' % (i, ';' * 7998) for i in range(whole - 1)) + \
        'void g(void) {%s}\n' % (';' * (rest - 2)) + body(7998)

def included(files):
    for i in range(files):
        put('n%d.h' % i, '#include "n%d.h"\n' % (i + 1) if i + 1 < files else '\n')
    return ['n%d.h' % i for i in range(files)]

def repeated(word, n):
    """n times a word, by includes of a file with 16,384 of them: what it needs is written to `words.h` and `rest.h`."""
    put('words.h', (word + '\n') * 16384)
    put('rest.h', (word + '\n') * (n % 16384))
    return '#include "words.h"\n' * (n // 16384) + '#include "rest.h"\n'

def statics(size):
    whole, rest = divmod(size, 1048576)
    return ''.join('char a%d[1048576];\n' % i for i in range(whole)) + ('char b[%d];\n' % rest if rest else '') + MAIN

def long_name(n):
    """A path of n bytes, in folders whose names are short."""
    return 'f/' * 100 + 'n' * (n - 200)

def segment_file(headers, size):
    """An executable file of so many program headers, the first of which asks for so many bytes."""
    head = b'\x7fELF\x01\x01\x01' + bytes(9) + struct.pack('<HHIIIIIHHHHHH', 2, 243, 1, 0, 52, 0, 0, 52, 32, headers, 0, 0, 0)
    first = struct.pack('<8I', 1, 0, 0x10000, 0, 0, size, 6, 4096)
    return head + first + bytes(32 * (headers - 1))

# a source for each limit, by its code and its row's first word
SOURCES = {
    '701 bytes': lambda n: MAIN + ' ' * (n - len(MAIN) - 1) + '\n',
    '703 bytes': lambda n: 'int %s;\n' % ('a' * n) + MAIN,
    '704 macros': lambda n: ''.join('#define m%05x\n' % i for i in range(n)) + MAIN,
    '705 parameters': lambda n: '#define F(%s)\n' % ','.join('p%d' % i for i in range(n)) + MAIN,
    '707 conditionals': lambda n: '#if 1\n' * n + MAIN + '#endif\n' * n,
    '235 line': lambda n: '#line %d\n' % n + MAIN,
    '303 value': lambda n: '#if 0x1\n#endif\nint x = %d;\n' % n + MAIN,
    '609 value': lambda n: 'unsigned x = %du;\n' % n + MAIN,
    '709 depth': lambda n: 'int main(void) { return %s0%s; }\n' % ('(' * (n - 4), ')' * (n - 4)),
    '710 nodes': lambda n: body(n - 2),
    '711 nodes': functions,
    '712 bytes': lambda n: 'char a[%d];\n' % n + MAIN,
    '713 bytes': statics,
    '714 weight': lambda n: 'int main(void) { char a[%d]; return 0; }\n' % (n - 64 - 16 * 6),
    '715 function': lambda n: ''.join('void f%d(void) { }\n' % i for i in range(n - 1)) + MAIN,
}

def at_limit(cc, key, n):
    """The code that so many come to, or None."""
    if key in SOURCES:
        return code_of(cc, SOURCES[key](n))
    if key == '702 files':
        others = ['x%d.h' % i for i in range(n - 1)]
        for name in others:
            put(name, '')
        return code_of(cc, MAIN, *others)
    if key == '102 bytes':
        put(long_name(n), '')
        return code_of(cc, MAIN, long_name(n))
    if key == '706 replacements':
        return code_of(cc, '#define A\n' + repeated('A', n), 'words.h', 'rest.h', command='pp')
    if key == '707 files':
        return code_of(cc, '#include "n0.h"\n', *included(n), command='pp')
    if key == '708 tokens':
        return code_of(cc, repeated('+', n), 'words.h', 'rest.h', command='pp')
    if key in ('907 bytes', '905 program'):
        put('made', segment_file(*(1, n) if key == '907 bytes' else (n, 4096)))
        said = run(cc, 'run', 'made')[2]
        return said.split(' ')[1] if said.startswith('made:0: ') else None
    if key == 'usage N':
        code_of(cc, MAIN)
        return 'usage' if run(cc, 'run', 'made', '--max', str(n))[0] == 2 else None
    return 'no source'

def limits(cc):
    told = rows(['What', 'At most', 'Past it'])
    for what, most, code in told:
        n = int(most.replace(',', ''))
        key = code + ' ' + what.split()[0].rstrip(':')
        at, past = at_limit(cc, key, n), at_limit(cc, key, n + 1)
        # a greatest constant has no type, which is another fault
        holds('%s: %s at %d, %s past it' % (what, at, n, past), at == ('609' if code == '303' else None) and past == code)
    holds('a limit without a row', len(told) == len(SOURCES) + 8)

# ----------------------------------------------------------------- by gcc

def by_host():
    put('host/rvio.h', ways.RVIO)
    put('host/rvio.c', ways.PORT)
    files, commands = programs()
    for name, text in files.items():
        put(name, text)
    for command, output in commands:
        built = re.match(r'zkc build ([a-z]+\.c)( .*)? -o ([a-z]+)$', command)
        if built:
            wrong = run(*HOST, built.group(1), 'host/rvio.c', '-o', built.group(3))[2]
            holds('%s: %s' % (command, wrong), wrong == '')
        else:
            _, said, wrong = run('sh', '-c', command.replace('zkc run ', './'))
            holds('%s: %r, %r' % (command, said, wrong), said == output and wrong == '')
    for source, _ in left_out():
        put('main.c', source)
        wrong = run(*HOST, '-fsyntax-only', 'main.c')[2]
        holds('%r is no C: %s' % (source, wrong), wrong == '')

def main():
    words = sys.argv[1:]
    cc = os.path.abspath(words[0] if words else 'bin/cc')
    with tempfile.TemporaryDirectory() as work:
        os.chdir(work)
        if words == ['--host']:
            by_host()
        else:
            by_compiler(cc)
        os.chdir('/')
    sys.exit(verdict.end())

main()
