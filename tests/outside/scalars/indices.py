#!/usr/bin/env python3
"""Writes programs that read and write elements by subscripts that change: `indices.py COUNT SEED >indices.txt`. Arrays are static or automatic, of all
element types, of one and of two rows, near and far from the first static and from the frame's start; all is defined by construction."""
import sys

import outsiders
import ticks

TYPES = ['char', 'signed char', 'unsigned char', 'short', 'unsigned short', 'int', 'unsigned', '_Bool']
LENGTHS = [1, 2, 3, 4, 5, 7, 8, 9, 16, 31, 64]
FILLERS = [0, 0, 0, 3, 100, 1021, 2045, 4093, 5000]


class Maker:
    """A program, made by chance."""

    def __init__(self, chance):
        self.chance, self.pick, self.number, self.arrays = chance, chance.choice, 0, []

    def name(self, letter):
        self.number += 1
        return '%s%d' % (letter, self.number)

    def array(self, storage):
        """The declaration of an array, with the one of what lies before it."""
        kind, length, rows = self.pick(TYPES), self.pick(LENGTHS), self.pick([0, 0, 0, 2, 3])
        name, filler = self.name('a'), self.pick(FILLERS)
        self.arrays.append((name, length, rows))
        before = '%schar %s[%d];\n' % (storage, self.name('z'), filler) if filler and not rows else ''
        sizes = '[%d][%d]' % (rows, length) if rows else '[%d]' % length
        return before + '%s%s %s%s%s;\n' % (storage, kind, name, sizes, '' if storage else ' = { { 0 } }' if rows else ' = { 0 }')

    def index(self, names, length):
        """A subscript below the length."""
        one = self.pick(names)
        return self.pick(['%s %% %du' % (one, length), '(%s + %du) %% %du' % (one, self.chance.randrange(9), length), '(%s ^ %s) %% %du' % (one, self.pick(names), length),
                          '%d' % self.chance.randrange(length)])

    def element(self, names, bounded):
        """An element of an array: by one of the variables that stay below a bound, or by a remainder."""
        name, length, rows = self.pick(self.arrays)
        fits = [it for it, bound in bounded if bound <= length]
        low = [it for it, bound in bounded if 0 < bound <= length]

        def subscript():
            form = self.chance.randrange(6)
            if fits and form < 4:
                return self.pick(fits)
            if low and form == 4:
                return '%s - 0u' % self.pick(low)
            return self.index(names, length)
        return '%s[%s][%s]' % (name, self.index(names, rows), subscript()) if rows else '%s[%s]' % (name, subscript())

    def value(self, names, bounded, depth):
        if depth == 0 or self.chance.random() < 0.2:
            return self.pick([self.pick(names), '%du' % self.chance.randrange(1, 300), '(unsigned)%s' % self.element(names, bounded)])
        one, two = self.value(names, bounded, depth - 1), self.value(names, bounded, depth - 1)
        return self.pick(['(%s %s %s)' % (one, self.pick('+-*&|^'), two), '(unsigned)%s' % self.element(names, bounded), '(%s %s %d)' % (one, self.pick(['<<', '>>']), self.chance.randrange(32)),
                          '(%s %s %s)' % (one, self.pick(['<', '==', '!=', '>=']), two), '(%s ? %s : %s)' % (one, two, self.pick(names))])

    def statement(self, names, bounded, depth):
        form = self.chance.randrange(10 if depth else 6)
        if form < 2:
            return '%s = %s;' % (self.element(names, bounded), self.pick(['(int)(%s & 127u)', '(int)((%s) %% 100u)']) % self.value(names, bounded, 2))
        if form == 2:
            return '%s %s= (%s & 3u);' % (self.element(names, bounded), self.pick('|^&'), self.value(names, bounded, 1))
        if form == 3:
            return '%s %s= %s;' % (self.pick(names), self.pick(['', '+', '^', '-', '*']), self.value(names, bounded, 2))
        if form == 4 and bounded:
            counter, bound = self.pick(bounded)
            return '%s = (%s + %du) %% %du; %s = %s;' % (counter, counter, self.chance.randrange(5), bound, self.pick(names), self.value(names, bounded, 1))
        if form < 7:
            return 'if (%s) { %s } else { %s }' % (self.value(names, bounded, 1), self.statement(names, bounded, 0), self.statement(names, bounded, 0))
        counter, bound = self.name('i'), self.pick([1, 2, 3, 5, 8])
        kind = self.pick(['unsigned', 'int', 'unsigned char', 'short'])
        inner = ' '.join(self.statement(names, bounded, depth - 1) for _ in range(self.chance.randrange(1, 3)))
        used = ' '.join('%s = (int)(%s & 63u);' % (self.element(names, [(counter, bound)]), self.value(names, [(counter, bound)], 1)) for _ in range(2))
        return 'for (%s %s = 0; %s < %d; %s++) { %s %s }' % (kind, counter, counter, bound, counter, used, inner)

    def function(self, name):
        mine = len(self.arrays)
        passed = ['p%d' % it for it in range(self.pick([1, 2, 3, 9]))]
        own = [self.name('v') for _ in range(self.chance.randrange(1, 9))]
        begun = ''.join('    ' + line + '\n' for _ in range(self.chance.randrange(3)) for line in self.array('').rstrip('\n').split('\n'))
        bounded = [(self.name('k'), bound) for bound in self.chance.sample([1, 2, 3, 5, 8, 16], 2)]
        begun += ''.join('    unsigned %s = %s;\n' % (it, self.pick(passed)) for it in own)
        begun += ''.join('    %s %s = (int)(%s %% %du);\n' % (self.pick(['unsigned', 'unsigned short', 'unsigned char']), it, self.pick(passed), bound) for it, bound in bounded)
        names = passed + own + ['sum']
        body = ''.join('    %s\n' % self.statement(names, bounded, 2) for _ in range(self.chance.randrange(3, 8)))
        text = 'static unsigned %s(%s)\n{\n%s%s    return %s;\n}\n' % (name, ', '.join('unsigned ' + it for it in passed), begun, body, self.value(names, bounded, 2))
        del self.arrays[mine:]
        return text, len(passed)

    def call(self, name, count):
        return '%s(%s)' % (name, ', '.join(['k'] + ['%du' % self.chance.randrange(1000) for _ in range(count - 1)]))

    def program(self):
        statics = 'static unsigned sum;\n' + ''.join(self.array('static ') for _ in range(self.chance.randrange(1, 5)))
        first, ones = self.function('f')
        second, others = self.function('g')
        return ('%s%s%sint main(void)\n{\n    for (unsigned k = 0; k < 3u; k++)\n        sum = sum * 65599u + %s;\n    for (unsigned k = 0; k < 2u; k++)\n        sum += %s;\n'
                '    return (sum ^ sum >> 8 ^ sum >> 16 ^ sum >> 24) & 127u;\n}\n' % (statics, first, second, self.call('f', ones), self.call('g', others)))


if __name__ == '__main__':
    ticks.deep(lambda: outsiders.write('indices', Maker, 300, int(sys.argv[1]), int(sys.argv[2])))
