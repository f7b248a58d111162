#!/usr/bin/env python3
"""Holds the program to sources that are long or deep: no command ends by a signal.

    python3 tests/outside/hostile/check.py bin/cc [STACK IN KIB]

Each list that a source may have is made as long as the limits allow, by macros or by hand, and each construct as deep; pp, build,
list, interp and run each have so much stack (1024 KiB by default; that of most systems is 8192), 1.5 GB of address space
and a time measured against a short run. What each source comes to follows from the rules of the language: its status, or the code of its fault.
The last line is 'N passed, M failed'."""
import os
import subprocess
import sys

sys.path.insert(0, os.path.join(os.path.dirname(os.path.abspath(__file__)), '..', '..'))
import harness

MAIN = 'int main(void) { return 0; }\n'


def body(text):
    return 'int main(void) { ' + text + ' }\n'


def doubled(name, first, times, by=8):
    """Macros NAME0 to NAMEn, each of eight of the one before."""
    lines = [f'#define {name}0 {first}\n']
    for i in range(1, times + 1):
        lines.append(f'#define {name}{i} ' + ' '.join([f'{name}{i - 1}'] * by) + '\n')
    return ''.join(lines)


def many(text, count, between=','):
    return between.join(text.format(i) for i in range(count))


CONST = doubled('c', 'const const const const', 5)
CALLED = 'int f(' + many('int a{}', 24) + ') { return 0; }\n'


def nested_calls(depth):
    text = '0'
    for _ in range(depth):
        text = 'f(' + many('1', 23) + ',' + text + ')'
    return text


# name, source, what a build comes to (None: it builds; else the code of its fault), the status of a run
ROWS = [
    ('specifiers of an object', CONST + 'c5 int x;\n' + MAIN, None, 0),
    ('specifiers of a parameter', CONST + 'int f(c5 int x) { return x; }\n' + body('return f(7);'), None, 7),
    ('specifiers in a block', CONST + body('c5 int x = 3; return x;'), None, 3),
    ('specifiers of a cast', CONST + body('return (c5 int)5;'), None, 5),
    ('type words', doubled('u', 'unsigned', 4) + 'u4 int x;\n' + MAIN, 511, 0),
    ('sizes of a type name', '_Static_assert(sizeof(char' + '[1]' * 40000 + ') == 1, "m");\n' + MAIN, None, 0),
    ('parameters and arguments', 'int f(' + many('int a{}', 7000) + ') { return a6999; }\n' + body('return f(' + many('9', 7000) + ');'), None, 9),
    ('nested calls of 24 arguments', CALLED + body('return ' + nested_calls(245) + ';'), None, 0),
    ('enumerators', 'enum { ' + many('e{}', 60000) + ' };\n' + body('return e7;'), None, 7),
    ('declarators', 'int ' + many('n{}', 60000) + ';\n' + MAIN, None, 0),
    ('declarations', many('int n{};', 60000, '\n') + '\n' + MAIN, None, 0),
    ('assertions', '_Static_assert(1, "m");' * 45000 + '\n' + MAIN, None, 0),
    ('functions', many('int f{}(void) {{ return 0; }}', 16000, '\n') + '\n' + MAIN, None, 0),
    ('functions past the limit', many('int f{}(void) {{ return 0; }}', 16384, '\n') + '\n' + MAIN, 715, 0),
    ('initialisers', 'int a[200000] = { ' + many('1', 200000) + ' };\n' + body('return a[199999];'), None, 1),
    ('initialisers in a block', body('int a[7000] = { ' + many('1', 7000) + ' }; return a[6999];'), None, 1),
    ('adjacent strings', 'char a[] = ' + many('"a"', 200000, ' ') + ';\n' + body('return a[199999] == 97;'), None, 1),
    ('statements', body(';' * 7900 + 'return 4;'), None, 4),
    ('objects of a block', body(many('int n{};', 2600, ' ') + 'return 0;'), None, 0),
    ('labels', body('switch (2599) { ' + many('case {}: ;', 2600, ' ') + ' return 6; } return 0;'), None, 6),
    ('labels one after another', body('switch (150) { ' + many('case {}:', 200, ' ') + ' return 5; } return 0;'), None, 5),
    ('parentheses', body('return ' + '(' * 252 + '0' + ')' * 252 + ';'), None, 0),
    ('parentheses past the limit', body('return ' + '(' * 253 + '0' + ')' * 253 + ';'), 709, 0),
    ('ten thousand parentheses', body('return ' + '(' * 10000), 709, 0),
    ('condition of parentheses', '#if ' + '(' * 500000 + '\n', 221, 0),
    ('sum', body('return ' + '+'.join(['1'] * 253) + ';'), None, 253),
    ('conjunction', body('return ' + '&&'.join(['1'] * 250) + ';'), None, 1),
    ('if', body('if (1) ' * 240 + 'return 3; return 0;'), None, 3),
    ('if past the limit', body('if (1) ' * 300 + ';'), 709, 0),
    ('blocks', body('{' * 250 + '}' * 250 + 'return 0;'), None, 0),
    ('loops', body('for (;0;) ' * 240 + '; return 0;'), None, 0),
    ('switches', body('switch (1) { case 1: ' * 80 + ';' + ' }' * 80 + ' return 0;'), None, 0),
    ('subscripts', 'int a[1];\n' + body('return ' + 'a[' * 240 + '0' + ']' * 240 + ';'), None, 0),
    ('signs', body('return ' + '- ' * 240 + '3;'), None, 3),
    ('choices', body('return ' + '1?' * 240 + '8' + ':0' * 240 + ';'), None, 8),
    ('casts', body('return ' + '(int)' * 240 + '2;'), None, 2),
    ('calls', 'int f(int a) { return a; }\n' + body('return ' + 'f(' * 240 + '1' + ')' * 240 + ';'), None, 1),
    ('assignments', body('int a; a' + ' = a' * 200 + ' = 1; return a;'), None, 1),
    ('commas', body('return ' + '(1,' * 120 + '9' + ')' * 120 + ';'), None, 9),
    ('braces', 'int a' + '[1]' * 240 + ' = ' + '{' * 240 + '1' + '}' * 240 + ';\n' + MAIN, None, 0),
    ('sizeof', body('return (int)(' + 'sizeof ' * 240 + '1);'), None, 4),
    ('sizes within sizes', body('return (int)sizeof(char' + '[sizeof(char' * 120 + '[1]' + ')]' * 120 + ');'), None, 1),
    ('declarations in nested blocks', body('{ int a; ' * 120 + '}' * 120 + ' return 0;'), None, 0),
    ('do', body('do ' * 240 + ';' + ' while (0);' * 240 + ' return 3;'), None, 3),
    ('do and blocks', body('do { ' * 120 + '} while (0); ' * 120 + 'return 3;'), None, 3),
    ('while', body('while (0) ' * 240 + '; return 3;'), None, 3),
    ('loops with declarations', body('for (int i = 0; i < 1; i++) ' * 120 + '; return 3;'), None, 3),
    ('else inside', body('if (1) ' * 240 + 'return 3;' + ' else return 4;' * 240 + ' return 5;'), None, 3),
    ('else if', body('if (0) ; else ' * 240 + 'return 3; return 4;'), None, 3),
    ('switches on parentheses', body('switch (' + '(' * 40 + '1' + ')' * 40 + ') { case 1: ' + 'switch (1) { case 1: ' * 60 + ';' + ' }' * 61 + ' return 3;'), None, 3),
    ('empty statements of a switch', body('switch (1) { ' + ';' * 7900 + ' } return 3;'), None, 3),
    ('as many arguments as nodes', 'int f(' + many('int a{}', 7900) + ') { return a7899; }\n' + body('return f(' + many('9', 7900) + ');'), None, 9),
    ('arguments that are arrays', 'char c[1];\nint f(' + many('char a{}[1]', 3900) + ') { return a3899[0]; }\n' + body('return f(' + many('c', 3900) + ');'), None, 0),
    ('nested calls of arrays', 'int c[1];\nint f(' + many('int a{}[1]', 23) + ', int b) { return b; }\n' + body('return ' + ('f(' + 'c,' * 23) * 240 + '7' + ')' * 240 + ';'), None, 7),
    ('two nested calls of arrays', 'char c[1];\nint f(' + many('char a{}[1]', 3890) + ', int b) { return b; }\n' + body('return f(' + 'c,' * 3890 + 'f(' + 'c,' * 3890 + '7));'), None, 7),
    ('two nested calls of numbers', 'int f(' + many('int a{}', 3900) + ') { return a3899; }\n' + body('return f(' + '1,' * 3899 + 'f(' + '1,' * 3899 + '7));'), None, 7),
    ('choices of choices', body('return ' + '(' * 120 + '1' + ' ? 1 : 0)' * 120 + ';'), None, 1),
    ('last choices', body('return ' + '0 ? 1 : ' * 240 + '8;'), None, 8),
    ('commas in a row', body('return ' + '1,' * 240 + '9;'), None, 9),
    ('sums of sums', body('return ' + '1+(' * 120 + '9' + ')' * 120 + ';'), None, 129),
    ('operators of each layer', body('return ' + '0||1&&0|1^3&2==1<3<<1+2*(' * 18 + '0' + ')' * 18 + ' == 0 || 1;'), None, 1),
    ('conjunctions of conjunctions', body('return ' + '1&&(' * 120 + '1' + ')' * 120 + ';'), None, 1),
    ('disjunctions of disjunctions', body('return ' + '0||(' * 120 + '1' + ')' * 120 + ';'), None, 1),
    ('complements', body('return ' + '~' * 240 + '3;'), None, 3),
    ('negations', body('return ' + '!' * 240 + '3;'), None, 1),
    ('plus signs', body('return ' + '+ ' * 240 + '3;'), None, 3),
    ('casts of parentheses', body('return ' + '(char)(' * 120 + '2' + ')' * 120 + ';'), None, 2),
    ('assignments to elements', 'int a[1];\n' + body('a[' * 80 + '0' + '] = 0' * 79 + '] = 3; return a[0];'), None, 3),
    ('subscripts of signs', 'int a[1];\n' + body('return ' + 'a[+' * 120 + '0' + ']' * 120 + ';'), None, 0),
    ('subscripts in a row', 'char a' + '[1]' * 240 + ';\n' + body('return sizeof(a' + '[0]' * 239 + ') + a' + '[0]' * 240 + ';'), None, 1),
    ('dimensions', 'char a' + '[1]' * 3000 + ';\n' + body('return (int)sizeof(a);'), None, 1),
    ('dimensions as long as the source', 'char a' + '[1]' * 200000 + ';\n' + body('return (int)sizeof(a);'), None, 1),
    ('long dimensions of rows', 'int a[2][3]' + '[1]' * 35000 + '[2]' + '[1]' * 400 + ';\n' + body('return (int)sizeof(a);'), None, 48),
    ('dimensions of rows', 'int a[2][3]' + '[1]' * 2500 + '[2]' + '[1]' * 400 + ';\n' + body('return (int)sizeof(a);'), None, 48),
    ('dimensions in a block', body('char a' + '[1]' * 3000 + '; return (int)sizeof(a);'), None, 1),
    ('dimensions of a parameter', 'int f(char a' + '[1]' * 3000 + ') { return (int)sizeof(a[0]); }\nchar c' + '[1]' * 3000 + ';\n' + body('return f(c);'), None, 1),
    ('dimensions declared again', ('extern char a' + '[1]' * 3000 + ';\n') * 2 + 'char a' + '[1]' * 3000 + ';\n' + MAIN, None, 0),
    ('braces in a block', body('int a' + '[1]' * 120 + ' = ' + '{' * 120 + '3' + '}' * 120 + '; return a' + '[0]' * 120 + ';'), None, 3),
    ('constant of an enumerator', 'enum { e = ' + '(' * 240 + '3' + ')' * 240 + ' };\n' + body('return e;'), None, 3),
    ('constant of a label', body('switch (3) { case ' + '(' * 240 + '3' + ')' * 240 + ': return 4; } return 5;'), None, 4),
    ('constant of a size', 'char a[' + '(' * 240 + '3' + ')' * 240 + '];\n' + body('return sizeof a;'), None, 3),
    ('constant of an assertion', '_Static_assert(' + '1+' * 240 + '1, "m");\n' + MAIN, None, 0),
    ('first value of a static object', 'int a = ' + '-(' * 120 + '3' + ')' * 120 + ';\n' + body('return a;'), None, 3),
    ('loops and parentheses', body('do ' * 120 + ';' + (' while (' + '(' * 120 + '0' + ')' * 120 + ');') + ' while (0);' * 119 + ' return 3;'), None, 3),
    ('conditions of text', '#if 1\n' * 127 + '#endif\n' * 127 + MAIN, None, 0),
    ('conditions of text past the limit', '#if 1\n' * 60000 + '#endif\n' * 60000 + MAIN, 707, 0),
    ('condition of signs', '#if ' + '- ' * 100000 + '1\n#endif\n' + MAIN, None, 0),
    ('condition of negations', '#if ' + '!' * 100000 + '1\n#endif\n' + MAIN, None, 0),
    ('condition of choices', '#if ' + '1?' * 50000 + '1' + ':0' * 50000 + '\n#endif\n' + MAIN, None, 0),
    ('condition of conjunctions', '#if ' + '1&&' * 100000 + '1\n#endif\n' + MAIN, None, 0),
    ('condition of sums', '#if ' + '1+' * 100000 + '1\n#endif\n' + MAIN, None, 0),
    ('chain of macros', ''.join(f'#define m{i} m{i - 1}\n' for i in range(1, 3000)) + '#define m0 3\n' + body('return m2999;'), None, 3),
    ('nested calls of a macro', '#define g(a) a\n' + body('return ' + 'g(' * 1000 + '3' + ')' * 1000 + ';'), None, 3),
    ('parameters of a macro', '#define f(' + many('a{}', 127) + ') a126\n' + body('return f(' + many('3', 127) + ');'), None, 3),
    ('parameters of a macro past the limit', '#define f(' + many('a{}', 1000) + ') a999\n' + MAIN, 705, 0),
    ('long line', body('return ' + ' ' * 900000 + '3;'), None, 3),
    ('long comment', '/*' + '*' * 900000 + '*/ ' + MAIN, None, 0),
    ('continued lines', body('return ' + '\\\n' * 100000 + '3;'), None, 3),
]


def held(case, stack, source, code, status):
    """Each command ends as it is to, or with the code of the fault."""
    case.program.write('main.c', source)
    # (preprocessing alone does not meet what the grammar and the constraints refuse)
    early = code is not None and (code < 400 or code in (705, 707))
    wanted = {'pp': 1 if early else 0, 'build': 1 if code else 0, 'list': 1 if code else 0, 'interp': 1 if code else status}
    words = {'pp': ['main.c'], 'build': ['main.c', '-o', 'out'], 'list': ['main.c'], 'interp': ['main.c']}
    if code is None:
        wanted['run'], words['run'] = status, ['out']
    for command, these in words.items():
        done = case.program.go(command, *these, stdin=subprocess.DEVNULL, stdout=subprocess.DEVNULL, stack=stack, memory=1500 << 20)
        told = f' {code} ' in done.line.split('\n')[0] if code and done.status == 1 else True
        case.expect(f'{command} {done.line[:100]}', (done.status, told), (wanted[command], True))


def cases(_, stack='1024'):
    for name, *row in ROWS:
        yield harness.Row(name, held, int(stack) * 1024, *row)


if __name__ == '__main__':
    sys.exit(harness.main(cases))
