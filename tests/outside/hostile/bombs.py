#!/usr/bin/env python3
"""Gives preprocessing short sources that ask for much, under a limit of memory: each has its exact answer, or takes more than that.

    python3 tests/outside/hostile/bombs.py bin/cc [-k WORD]

Each source is made by a rule that says what comes of it: its tokens, or the code of its fault. That follows from the language
and its limits: 1,048,576 tokens (708), as many replacements (706), files 32 deep (707), however much stands in between. `pp` has
2 GB of address space, as by `ulimit -v`, and five minutes; 801 is the answer where the tokens of an argument, which have to stand
at once, take more. A condition is read token by token, so that none of its expansion stands in memory, however long it is. The most resident memory and the time are printed beside each row, and held to nothing. With -k WORD only rows
that have it in their name are tried.
The last line is 'N passed, M failed'."""
import os
import re
import sys

sys.path.insert(0, os.path.join(os.path.dirname(os.path.abspath(__file__)), '..', '..'))
import harness

MOST_BYTES = 2 << 30
MOST_SECONDS = 300


def chain(count, argument, first='x'):
    """Function-like macros, each a call of the one before it."""
    return f'#define f0(x) {first}\n' + ''.join(f'#define f{i}(x) f{i - 1}({argument})\n' for i in range(1, count + 1))


def grown(name, first, times, by):
    """Object-like macros NAME0 to NAMEn, each of so many of the one before."""
    lines = [f'#define {name}0 {first}\n']
    for i in range(1, times + 1):
        lines.append(f'#define {name}{i} ' + ' '.join([f'{name}{i - 1}'] * by) + '\n')
    return ''.join(lines)


def calls(name, depth, inside):
    return f'{name}(' * depth + inside + ')' * depth


TIMES8 = '#define t(x) x x x x x x x x\n'
NAMES = ''.join(f'#define n{i} {i}\n' for i in range(4000))
THOUSAND = '#define a ' + ';' * 1024 + '\n#define b ' + 'a ' * 1024 + '\n'
# 15,625,000 tokens of 62,501 replacements
MILLIONS = '#define a ' + '; ' * 250 + '\n#define b ' + 'a ' * 250 + '\n#define c ' + 'b ' * 250 + '\n'

# 250,000,000 tokens of 501 replacements
HUNDREDS_OF_MILLIONS = '#define a ' + ';' * 500000 + '\n#define b ' + 'a ' * 500 + '\n'

LONG = '#define twice(x) x x\n#define a ' + ';' * 1040000 + '\n'


def of_names(kinds):
    """A macro for each name, which becomes all others but those in which it stands."""
    return ''.join(f'#define {name} x ' + ' '.join(other for other in kinds if other != name) + '\n' for name in kinds)


def of_calls(kinds):
    return ''.join(f'#define {name}(x)' + ''.join(f'{other}(x)' for other in kinds if other != name) + '\n' for name in kinds)


SKIPPED = '#if 0\n' + ';' * 1048000 + '\n#endif\n'
# Four files of a megabyte, each of which includes the next
NESTED = {'a.h': SKIPPED + '#include "b.h"\n', 'b.h': SKIPPED + '#include "c.h"\n', 'c.h': SKIPPED + 'int main(void){return 0;}\n'}

# name, source, what comes of it: the tokens without white space, or the code of the fault; further files, where there are some
ROWS = [
    ('chain of calls', chain(4000, 'x') + 'f4000(3)\n', '3'),
    ('chain of calls in parentheses', chain(400, '(x)') + 'f400(3)\n', '(' * 400 + '3' + ')' * 400),
    ('chain of calls of a name', chain(4000, 'x') + '#define one 1\nf4000(one)\n', '1'),
    ('chain of calls of many names', chain(200, 'x') + NAMES + 'f200(' + ' '.join(f'n{i}' for i in range(4000)) + ')\n', ''.join(str(i) for i in range(4000))),
    ('long chain of calls of many names', chain(1000, 'x') + NAMES + 'f1000(' + ' '.join(f'n{i}' for i in range(4000)) + ')\n', ''.join(str(i) for i in range(4000))),
    ('chain of calls with a name behind each', '#define one 1\n' + chain(1000, 'x one') + 'f1000(3)\n', '3' + '1' * 1000),
    ('chain of calls with its own name behind each', '#define f0(x) x\n' + ''.join(f'#define f{i}(x) f{i - 1}(x f{i})\n' for i in range(1, 501)) + 'f500(3)\n', '3' + ''.join(f'f{i}' for i in range(500, 0, -1))),
    ('chain of names', ''.join(f'#define m{i} m{i - 1}\n' for i in range(1, 40000)) + '#define m0 3\nm39999\n', '3'),
    ('nested calls', '#define g(a) (a)\n' + calls('g', 2000, '1') + '\n', '(' * 2000 + '1' + ')' * 2000),
    ('tokens, as many as there may be', THOUSAND + 'b\n', ';' * 1048576),
    ('one token more', THOUSAND + 'b ;\n', 708),
    ('one token more in another run', THOUSAND + 'b\n#undef a\n;\n', 708),
    ('millions of tokens', MILLIONS + 'c\n', 708),
    ('millions of tokens, and a call that is not closed', MILLIONS + '#define f(x) x\nc f(\n', 211),
    ('millions of tokens in an argument', MILLIONS + '#define f(x) x\nf(c)\n', 708),
    ('millions of tokens in an argument that is not used', MILLIONS + '#define f(x)\nf(c) ;\n', ';'),
    ('millions of tokens in a condition', MILLIONS + '#if c\n#endif\n', 221),
    ('hundreds of millions of tokens in a condition', HUNDREDS_OF_MILLIONS + '#if b\n#endif\n', 221),
    ('hundreds of millions of tokens in the condition of an #elif', HUNDREDS_OF_MILLIONS + '#if 0\n#elif b\n#endif\n', 221),
    ('millions of tokens in a condition, and a call that is not closed', MILLIONS + '#define f(x) x\n#if c f(\n#endif\n', 211),
    ('millions of tokens in a condition, and a defined', MILLIONS + '#define d defined\n#if c d\n#endif\n', 223),
    ('millions of tokens behind #line', MILLIONS + '#line c\n', 235),
    ('millions of tokens behind #include', MILLIONS + '#include c\n', 233),
    ('replacements of names', grown('m', '1', 10, 8) + 'm10\n', 706),
    ('arguments of eight times as many, six times', TIMES8 + calls('t', 6, ';') + '\n', ';' * 262144),
    ('arguments of eight times as many, seven times', TIMES8 + calls('t', 7, ';') + '\n', 708),
    ('arguments of eight times as many, seven times, of which nothing is left', TIMES8 + '#define no(x)\n#define call(x) no(x)\ncall(' + calls('t', 7, ';') + ')\n', ''),
    ('arguments of eight times as many, twelve times', TIMES8 + calls('t', 12, ';') + '\n', 801),
    ('arguments of eight times as many, of which nothing is left', TIMES8 + '#define no(x)\n#define call(x) no(x)\ncall(' + calls('t', 12, ';') + ')\n', 801),
    ('arguments of eight times as many, beside ##', '#define t(x) p(x) p(x) p(x) p(x) p(x) p(x) p(x) p(x)\n#define p(x) x##x\n#define q(x) t(x)\n' + calls('q', 3, ';') + '\n', 206),
    ('empty arguments', '#define f(' + ','.join(f'a{i}' for i in range(127)) + ') a126\n' + ('f(' + ',' * 126) * 400 + '1' + ')' * 400 + '\n', '1'),
    ('a long body in calls', '#define f(x) x ' + ';' * 4000 + '\n' + calls('f', 200, '1') + '\n', '1' + ';' * 800000),
    ('a long body in too many calls', '#define f(x) x ' + ';' * 4000 + '\n' + calls('f', 300, '1') + '\n', 708),
    ('a long list, and twice the same', LONG + 'a\n#undef x\ntwice(a)\n', 708),
    ('a long list, and twice the same in a condition', LONG + 'a\n#if twice(a)\n#endif\n', 221),
    ('names and calls of each other', of_calls('ABCDEFG') + of_names('abcdefg') + 'A(a)\n', 708),
    ('long files in one another, of which all is skipped', SKIPPED + '#include "a.h"\n', 'intmain(void){return0;}', NESTED),
    ('a long file that includes itself', '#include "bomb.c"\n' + ';' * 1040000 + '\n', 707),
    ('a file of 65,558 bytes that includes itself', '#include "bomb.c"\n' + ';' * 65539 + '\n', 707),
    ('a short file that includes itself', '#include "bomb.c"\n' + ';' * 1000 + '\n', 707),
    ('strings of strings', '#define s(x) #x\n#define t(x) s(x)\n' + calls('t', 12, '1') + '\n', None),
    ('joined names', '#define c(x) x##x\n#define d(x) c(x)\n' + calls('d', 16, 'a') + '\n', 'a' * 65536),
]


def differs(wanted, status, tokens, said):
    """What is not as it is to be; empty where all is."""
    if isinstance(wanted, int):
        return '' if status == 1 and f' {wanted} ' in said else f'status {status} and not {wanted}: {said[:100]}'
    if status:
        return f'status {status}: {said[:100]}'
    return '' if wanted is None or tokens == wanted else f'other tokens: {tokens[:60]}'


def held(case, source, wanted, others=None):
    others = others or {}
    for name, text in {'bomb.c': source, **others}.items():
        case.program.write(name, text)
    done = case.program.measured('pp', 'bomb.c', *others, memory=MOST_BYTES, cpu=MOST_SECONDS)
    wrong = differs(wanted, done.status, re.sub(r'\s', '', done.out.decode('utf-8')), done.line)
    print(f'{done.megabytes:6.1f} MB {done.seconds:5.1f} s  {case.name()} ({len(source)} bytes)', flush=True)
    case.holds(wrong, not wrong)


def cases(_):
    for name, *row in ROWS:
        yield harness.Row(name, held, *row)


if __name__ == '__main__':
    sys.exit(harness.main(cases))
