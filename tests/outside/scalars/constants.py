#!/usr/bin/env python3
"""Writes programs whose loops use constants that no instruction can have in itself: `constants.py COUNT SEED >constants.txt`. Functions have no to
twelve variables and no to ten parameters, so that the room of their frames differs; unsigned numbers, so that all is defined."""
import sys

import outsiders
import ticks

WORDS = [1, 2, 3, 7, 10, 31, 63, 64, 100, 255, 1000, 2047, 2048, 2049, 4095, 4096, 5000, 20000, 65535, 65536, 123456, 0x1000000, 0x7fffffff, 0x80000000,
         0xdeadbeef, 0xfffff000, 0xfffff800, 0xffffffff]
LOOPS = ['for (unsigned {0} = 0; {0} < {1}u; {0}++) {{ {2} }}', 'unsigned {0} = {1}u + 5000u; while ({0} != 5000u) {{ {0} -= 1; {2} }}',
         'unsigned {0} = 0; do {{ {0}++; if ({0} == 3000u) continue; {2} }} while ({0} < {1}u);']


class Maker:
    """A program, made by chance."""

    def __init__(self, chance):
        self.chance, self.pick, self.number, self.functions, self.words = chance, chance.choice, 0, [], []

    def word(self):
        return '%du' % self.pick(self.words)

    def value(self, names, depth):
        """An expression over these names."""
        if depth == 0 or self.chance.random() < 0.2:
            return self.pick(names) if self.chance.random() < 0.5 else self.word()
        one, two = self.value(names, depth - 1), self.value(names, depth - 1)
        callee, count = self.pick(self.functions) if self.functions else ('', 0)
        return self.pick(['(%s %s %s)' % (one, self.pick('+-*&|^'), two), '(%s %s %s)' % (one, self.pick('+-*&|^'), self.word()), '(%s - %s)' % (self.word(), one),
                          '(%s %% %du)' % (one, self.pick([2, 3, 8, 10, 1000, 1024, 2048, 4096])), '(%s / %du)' % (one, self.pick([2, 3, 10, 16, 4096])),
                          '(%s %s %d)' % (one, self.pick(['<<', '>>']), self.chance.randrange(32)), '(%s %s %s)' % (one, self.pick(['<', '==', '!=', '>=']), self.word()),
                          '(%s ? %s : %s)' % (one, two, self.word()), 'table[%s %% 12u]' % one, 'pairs[%s %% 5u][%d]' % (one, self.chance.randrange(3)),
                          '%s(%s)' % (callee, ', '.join(self.value(names, 0) for _ in range(count))) if callee else one])

    def statement(self, names, depth):
        """A statement that may write these names."""
        kind = self.chance.randrange(8) if depth else 0
        if kind < 3:
            return '%s %s= %s;' % (self.pick(names), self.pick(['', '+', '^', '-', '*']), self.value(names, 2))
        if kind == 3:
            return self.pick(['table[%s %% 12u] = %s;', 'pairs[%s %% 5u][2] ^= %s;']) % (self.value(names, 1), self.pick([self.word(), self.value(names, 2)]))
        inner = ' '.join(self.statement(names, depth - 1) for _ in range(self.chance.randrange(1, 3)))
        if kind == 4:
            return 'if (%s > %s) { %s } else { %s }' % (self.pick(names), self.word(), inner, self.statement(names, depth - 1))
        self.number += 1
        return '{ %s }' % self.pick(LOOPS).format('i%d' % self.number, self.chance.randrange(1, 9), inner)

    def function(self, name):
        self.words = self.chance.sample(WORDS, self.chance.randrange(1, 6))
        passed = ['p%d' % it for it in range(self.pick([0, 1, 1, 2, 3, 5, 9, 10]))]
        own = ['v%d' % it for it in range(self.chance.randrange(13 - len(passed)))]
        begun = ''.join('    unsigned %s = %s;\n' % (it, self.value(passed + ['sum'], 1)) for it in own)
        body = ''.join('    %s\n' % self.statement(passed + own + ['sum'], 3) for _ in range(self.chance.randrange(2, 5)))
        text = 'static unsigned %s(%s)\n{\n%s%s    return %s;\n}\n' % (name, ', '.join('unsigned ' + it for it in passed) or 'void', begun, body, self.value(passed + own + ['sum'], 2))
        self.functions = [(name, len(passed))]
        return text

    def program(self):
        functions = ''.join(self.function('f%d' % it) for it in range(self.chance.randrange(1, 4)))
        callee, count = self.functions[0]
        call = '%s(%s)' % (callee, ', '.join('%du' % self.pick(WORDS) for _ in range(count)))
        return ('static unsigned sum;\nstatic unsigned short table[12];\nstatic unsigned pairs[5][3];\n%sint main(void)\n{\n    for (unsigned k = 0; k < 3u; k++) {\n        sum = sum * 65599u + %s;\n    }\n'
                '    return (sum ^ sum >> 8 ^ sum >> 16 ^ sum >> 24) & 127u;\n}\n' % (functions, call))


if __name__ == '__main__':
    ticks.deep(lambda: outsiders.write('constants', Maker, 600, int(sys.argv[1]), int(sys.argv[2])))
