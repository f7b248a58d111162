"""Sources for bench/pp.sh: python3 pp_source.py calls | chain NAMES | nested DEPTH | headers FOLDER."""
import os
import random
import re
import sys

TOKEN = re.compile(r'[A-Za-z_]\w*|\d+|[^\s\w]')


def calls():
    """1,500 macros of one to six parameters, then calls, two deep, to 224,000 tokens."""
    rng = random.Random(20261123)
    lines, counts = [], []
    for number in range(1500):
        count = rng.randrange(1, 7)
        params = 'abcdef'[:count]
        body = ' '.join('%s %s' % (rng.choice('+-*&'), rng.choice(params)) for _ in range(count + 2))
        lines.append('#define m%d(%s) (%d %s)' % (number, ','.join(params), number % 10, body))
        counts.append(count)

    def call(depth):
        number = rng.randrange(len(counts))
        arguments = ','.join(call(depth - 1) if depth and rng.randrange(6) == 0 else rng.choice('xyzw5') for _ in range(counts[number]))
        return 'm%d(%s)' % (number, arguments)

    tokens = sum(len(TOKEN.findall(line)) for line in lines)
    while tokens < 224000:
        lines.append(call(2) + ';')
        tokens += len(TOKEN.findall(lines[-1]))
    return lines


def chain(names):
    """Macros each naming the next, and the first."""
    return ['#define c%x c%x' % (number, number + 1) for number in range(names)] + ['c0 ;']


def nested(depth):
    """Calls so deep in one another."""
    return ['#define g(a) (a)', 'g(' * depth + 'x' + ')' * depth + ' ;']


def header(rng, number):
    """A header behind a guard, of 25 KB: comments, macros, conditionals, declarations."""
    lines = ['#ifndef HEADER_%d_H' % number, '#define HEADER_%d_H' % number]
    size, item = 0, 0
    while size < 26000:
        name = 'h%d_%d' % (number, item)
        item += 1
        choice = rng.randrange(6)
        if choice == 0:
            added = ['/* %s takes %s and gives the sum of both, or zero where there is none. */' % (name, rng.choice(['two', 'three']))]
        elif choice == 1:
            added = ['#define %s(a, b) ((a) %s (b) + %d)' % (name.upper(), rng.choice('+-*&|'), item)]
        elif choice == 2:
            added = ['#define %s_SIZE %d' % (name.upper(), rng.randrange(1 << 20))]
        elif choice == 3:
            added = ['#if defined(HEADER_%d_H) && %d > %d' % (rng.randrange(40), rng.randrange(9), rng.randrange(9)),
                     'extern int %s_first(int, const char text[]);' % name, '#else', 'extern unsigned %s_second(unsigned char byte);' % name, '#endif']
        else:
            added = ['extern int %s(int %s, unsigned long count, const char text[]);' % (name, rng.choice(['left', 'right', 'value']))]
        lines += added
        size += sum(len(line) + 1 for line in added)
    return lines + ['#endif']


def headers(folder):
    """main.c includes each of 40 headers four times; they are written to the folder, 1 MB in all."""
    rng = random.Random(20261124)
    for number in range(40):
        with open(os.path.join(folder, 'h%d.h' % number), 'w', encoding='ascii') as file:
            file.write('\n'.join(header(rng, number)) + '\n')
    return ['#include "h%d.h"' % (number % 40) for number in range(160)] + ['int last;']


if __name__ == '__main__':
    if sys.argv[1] == 'headers':
        made = headers(sys.argv[2])
    else:
        made = {'calls': calls, 'chain': chain, 'nested': nested}[sys.argv[1]](*map(int, sys.argv[2:]))
    print('\n'.join(made))
