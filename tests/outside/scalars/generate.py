#!/usr/bin/env python3
"""Random programs of automatic scalars that do nothing undefined, by construction: `generate.py COUNT SEED >random.txt`.

The expressions are those of `../interp/generate.py`, over scalars alone; the statements, declarations and functions are of this file.
What a program comes to is asked of gcc and clang with their sanitizers (`confirm.py`), its ticks of `../interp/ticks.py`.
"""
import random
import subprocess
import sys

import outsiders

import generate as whole
import others
import ticks

Expression, Object = whole.Expression, whole.Object
SPELT = {'unsigned': ['unsigned', 'unsigned int', 'int unsigned'], 'long': ['long', 'long int', 'signed long'], 'int': ['int', 'int', 'signed', 'signed int'],
         'short': ['short', 'short int', 'signed short int'], 'unsigned long': ['unsigned long', 'long unsigned int'],
         'unsigned short': ['unsigned short', 'unsigned short int'], 'signed char': ['signed char', 'char signed']}
CASES = [*range(-7, 9), 63, 64, 127, 128, 255, 256, -128, 32767, 65535, -32768, 2147483647]


class Maker(whole.Maker):
    def __init__(self, chance):
        super().__init__(chance)
        self.hiding, self.group = None, []

    def visible(self):
        return [one for one in super().visible() if one.name != self.hiding]

    def spelling(self, kind):
        return self.chance.choice(SPELT.get(kind, [kind]))

    # ---- expressions

    def measured(self):
        if self.happens(0.5):
            one = self.expression(self.pick(0, 1, 2))
            size = ticks.SIZES[one.kind]
            return Expression('sizeof %s' % one.at(14) if one.text[0] != '(' else 'sizeof(%s)' % one.text, 'unsigned', size, size, 14)
        kind = self.chance.choice(whole.KINDS)
        return Expression('sizeof(%s)' % self.spelling(kind), 'unsigned', ticks.SIZES[kind], ticks.SIZES[kind], 14)

    def digit(self, depth):
        return self.chosen(depth)

    def call(self, function, depth):
        """Inside a group of functions that call one another, each call has a smaller n."""
        mine, self.current = self.current, function if function in self.group and self.current in self.group else self.current
        made = super().call(function, depth)
        self.current = mine
        return made

    def called(self, depth, void=False):
        if self.group and self.loops < 1 and self.happens(0.3):
            wanted = [one for one in self.group if (one.result == 'void') == void]
            if wanted:
                return self.call(self.chance.choice(wanted), depth) or (None if void else self.constant())
        return super().called(depth, void)

    # ---- declarations

    def new(self, letter, dimensions=0):
        one = super().new(letter, 0)
        if letter == 'v' and self.happens(0.2):
            taken = {other.name for other in self.scopes[-1] + (self.scopes[1] if len(self.scopes) == 3 else [])}
            hidden = [other.name for other in self.visible() if other.name not in taken and other.name != 'n']
            one.name = self.chance.choice(hidden or [one.name])
        return one

    def first(self, one, depth=2):
        """A first value of an object, whose own name means nothing there yet."""
        self.hiding = one.name
        value = self.effect(self.kept(one, self.expression(depth)))
        self.hiding = None
        return value.at(whole.ASSIGNMENT)

    def declare(self, one, static=False):
        form = '%s = {%s}' if self.happens(0.04) else '%s = %s'
        text = form % (one.name, self.first(one))
        one.locked = self.happens(0.08)
        head = '%s%s ' % ('const ' if one.locked else '', self.spelling(one.kind))
        self.scopes[-1].append(one)
        while self.happens(0.15):
            other = Object(self.name('v'), one.kind, one.low, one.high)
            text += ', %s = %s' % (other.name, self.first(other, 1))
            other.locked = one.locked
            self.scopes[-1].append(other)
        self.emit(head + text + ';')

    def local(self):
        if self.happens(0.05):
            name, value = self.name('E'), self.chance.choice(CASES)
            self.emit('enum { %s = %d };' % (name, value))
            self.enumerators = self.enumerators + [(name, value)]
            return
        one = self.new('v')
        if self.happens(0.75):
            return self.declare(one)
        self.emit('%s %s;' % (self.spelling(one.kind), one.name))
        self.scopes[-1].append(one)
        self.hiding = one.name
        value = self.effect(self.kept(one, self.expression(1)))
        self.hiding = None
        if one.name in value.text:
            value = self.kept(one, self.constant())
        self.emit('%s = %s;' % (one.name, value.at(whole.ASSIGNMENT)))

    def block(self, count, depth, result='void'):
        enumerators = self.enumerators
        super().block(count, depth, result)
        self.enumerators = enumerators

    # ---- statements

    def statement(self, depth):
        forms = ['assign'] * 5 + ['put', 'put', 'void_call', 'step_up', 'empty', 'wide', 'wide', 'bare', 'counted']
        if depth > 0:
            forms += ['branch', 'chain', 'loop', 'loop', 'switch', 'switch', 'nested', 'leave', 'leave', 'reading']
        getattr(self, self.chance.choice(forms) + '_statement')(depth - 1)

    def assigned_text(self):
        return self.effect(self.assigned(2)).text

    def put_statement(self, depth):
        """Calls without a value: alone, one after the other, one of two."""
        port = Expression('', 'int', 0, 0, 0, ['port'], ['port'])
        texts = ['rv_putbyte(%s)' % self.full(2).at(whole.ASSIGNMENT) for _ in range(3)]
        self.effect(port)
        form = self.pick('%s;', '%s;', '%s;', '%s, %s;', '%%s ? %s : %s;', '%%s ? %s : (void)0;')
        text = form.replace('%%s', self.full(2).at(4).replace('%', '%%'), 1) if '%%s' in form else form
        self.emit(text % tuple(texts[:text.replace('%%', '').count('%s')]))

    def wide_statement(self, depth):
        """A signed object is made small, then changed by what keeps it defined."""
        found = [one for one in self.visible() if one.kind in ('int', 'long') and not one.locked and one.low == -2 ** 31]
        if not found:
            return self.assign_statement(depth)
        name = self.chance.choice(found).name
        self.emit('%s %s;' % (name, self.pick('%= 1000', '&= 32767', '/= 1048576', '>>= 17', '%= 17')))
        self.hiding = name
        small = self.within(self.full(2), 30000)
        self.hiding = None
        self.emit(self.pick('%s++;' % name, '--%s;' % name, '%s += 1000000000 + %s;' % (name, small.at(13)), '%s -= %s;' % (name, small.at(1)),
                            '%s *= %s;' % (name, small.at(1)), '%s = %s - %s;' % (name, name, small.at(13))))

    def bare_statement(self, depth):
        """Branches without braces, and an `else` that could belong to two."""
        form = self.pick('if', 'else', 'two')
        self.emit('if (%s)' % self.full(2).text)
        if form == 'two':
            self.emit('    if (%s)' % self.full(2).text)
            self.emit('        %s;' % self.assigned_text())
            self.emit('    else')
            self.emit('        %s;' % self.assigned_text())
        else:
            self.emit('    %s;' % self.assigned_text())
        if form == 'else':
            self.emit('else')
            self.emit('    %s;' % self.assigned_text())

    def chain_statement(self, depth):
        self.emit('if (%s) {' % self.full().text)
        self.block(1, depth)
        for _ in range(self.pick(1, 1, 2, 4)):
            self.emit('} else if (%s) {' % self.full(2).text)
            self.block(1, depth)
        if self.happens(0.6):
            self.emit('} else {')
            self.block(1, depth)
        self.emit('}')

    def counted_statement(self, depth):
        """A loop over an object of a type that it may wrap in, with a short body or none."""
        if self.loops > 1:
            return self.empty_statement(depth)
        name, kind = self.name('i'), self.chance.choice(whole.KINDS[1:])
        first, last = self.chance.randint(0, 6), self.chance.randint(0, 9)
        self.emit('%s %s;' % (self.spelling(kind), name))
        counter = Object(name, kind, 0, 15)
        counter.locked = True
        self.loops += 1
        text = self.pick(';', '    %s;' % self.assigned_text())
        down = 'for (%s = %d; %s; %s -= 1)' % (name, last, name, name) if kind in ticks.UNSIGNED else 'for (%s = %d; %s-- > 0; )' % (name, first, name)
        self.emit(self.pick('for (%s = %d; %s != %d; %s < %d ? ++%s : --%s)' % (name, first, name, last, name, last, name, name), down,
                            'for (%s = 0; %s * 3 <= %d; %s = %s + 2)' % (name, name, 3 * last, name, name)))
        self.emit(text)
        self.loops -= 1
        counter.low, counter.high = (-1, 15) if kind not in ticks.UNSIGNED else (0, 15)
        self.scopes[-1].append(counter)

    def reading_statement(self, depth):
        """What is left of the input, byte by byte."""
        if self.loops > 0:
            return self.assign_statement(depth)
        name = self.name('i')
        counter = Object(name, 'int', -1, 255)
        counter.locked = True
        self.emit('for (int %s; (%s = rv_getbyte()) %s; ) {' % (name, name, self.pick('!= -1', '>= 0', '+ 1')))
        self.effect(Expression('', 'int', 0, 0, 0, ['port'], ['port']))
        self.scopes.append([counter])
        self.loops += 1
        self.block(self.chance.randint(1, 2), depth)
        self.loops -= 1
        self.scopes.pop()
        self.emit('}')

    def label(self, value):
        named = [name for name, one in self.enumerators if one == value]
        if named and self.happens(0.7):
            return self.chance.choice(named)
        if 65 <= value <= 126 and value != 92:
            return "'%c'" % value
        return self.pick(str(value), '%d + %d' % (value - 1, 1), '(%d)' % value, '%d' % value)

    def switch_statement(self, depth):
        one = self.full(2)
        self.emit('switch (%s) {' % (self.within(one, self.pick(3, 7, 7)).text if self.happens(0.7) else one.text))
        self.labels += 1
        jumped = None
        if self.happens(0.3):
            jumped = Object(self.name('v'), *self.pick(('int', -2 ** 31, 2 ** 31 - 1), ('char', 0, 255), ('unsigned', 0, 2 ** 32 - 1)))
            self.emit('    %s %s%s;' % (self.spelling(jumped.kind), jumped.name, self.pick('', ' = 9')))
        values = CASES + [value for _, value in self.enumerators]
        cases = sorted(set(self.chance.sample(values, self.chance.randint(1, 7))), key=lambda _: self.chance.random())
        default = self.chance.randrange(len(cases) + 2)
        for k, case in enumerate(cases):
            if k == default:
                self.emit('default:')
            self.emit('case %s:' % self.label(case))
            if self.happens(0.8):
                self.scopes.append([])
                self.indent += 1
                if jumped and self.happens(0.5):
                    self.emit('%s = %s;' % (jumped.name, self.first(jumped, 1)))
                    self.scopes[-1].append(jumped)
                self.case_statement(depth)
                if self.happens(0.6):
                    self.emit('break;')
                self.indent -= 1
                self.scopes.pop()
        self.emit('default: ;' if default >= len(cases) and self.happens(0.5) else '    ;')
        self.emit('}')
        self.labels -= 1

    def case_statement(self, depth):
        """Behind a label: no declarations, which would stand in the block of the switch."""
        self.pick(self.assign_statement, self.put_statement, self.wide_statement, self.bare_statement, self.leave_statement, self.nested_statement,
                  self.branch_statement, self.chain_statement, self.loop_statement)(depth)

    # ---- functions

    def head(self, made):
        words = ', '.join('%s %s' % (self.spelling(one.kind), one.name) for one in made.parameters)
        result = made.result if made.result == 'void' else self.spelling(made.result)
        return '%s%s %s(%s)' % (self.pick('', '', 'static '), result, made.name, words or 'void')

    def announced(self, recursive):
        parameters = [self.parameter() for _ in range(self.pick(0, 1, 2, 3, 9) if recursive else self.pick(0, 1, 1, 2, 2, 3, 4, 6, 8, 9, 10))]
        if recursive:
            depth = Object('n', self.pick('int', 'int', 'signed char', 'short'), 0, 5)
            depth.locked, depth.key = True, 'n'
            parameters.insert(0, depth)
        made = whole.Function(self.name('f'), 'void' if self.happens(0.2) else self.chance.choice(whole.KINDS), parameters, recursive)
        if recursive:
            made.reads, made.writes = {'port'}, {'port'}
        return made

    def define(self, made):
        self.emit((self.heads.get(made.name) or self.head(made)) + ' {')
        self.current = made
        self.scopes.append(list(made.parameters))
        if made.recursive:
            self.emit('    if (n <= 0)')
            self.emit('        return%s;' % ('' if made.result == 'void' else ' ' + self.full(2).text))
        self.block(self.chance.randint(1, 4), self.pick(1, 2, 2), made.result)
        self.emit('}')
        self.emit('')
        self.scopes.pop()
        self.current = None
        if made.recursive:
            made.reads, made.writes = {'port'}, {'port'}
        else:
            made.reads, made.writes = made.reads & {'port'}, made.writes & {'port'}

    def function(self):
        """One function, or two that call one another."""
        self.heads = {}
        recursive = self.happens(0.35)
        group = [self.announced(recursive) for _ in range(2 if recursive and self.happens(0.4) else 1)]
        if len(group) > 1 or self.happens(0.2):
            for made in group:
                self.heads[made.name] = self.head(made)
                self.emit(self.heads[made.name] + ';')
        if recursive:
            self.group = group
            self.functions += group
        for made in group:
            self.define(made)
        self.group = []
        if not recursive:
            self.functions += group

    def program(self):
        self.emit('#include <rvio.h>')
        names = [self.name('E') for _ in range(3)]
        values = [-self.chance.randint(1, 9), 0, self.chance.randint(1, 300)]
        values[1] = values[0] + 1
        self.emit('enum kind { %s = %d, %s, %s = %d };' % (names[0], values[0], names[1], names[2], values[2]))
        self.enumerators = list(zip(names, values))
        self.emit('static void show(unsigned long value) {')
        self.emit('    for (int k = 28; k >= 0; k -= 4) {')
        self.emit('        unsigned digit = value >> k & 15;')
        self.emit('        rv_putbyte(digit < 10 ? 48 + digit : 87 + digit);')
        self.emit('    }')
        self.emit('    rv_putbyte(10);')
        self.emit('}')
        for _ in range(self.chance.randint(1, 3)):
            self.function()
        self.main()
        return '\n'.join(self.lines) + '\n'

    def main(self, shown=None):
        self.current = whole.Function('main', '', [], False)
        self.emit('int main(void) {')
        self.scopes.append([])
        self.indent += 1
        for _ in range(self.chance.randint(2, 6)):
            self.local()
        for _ in range(self.chance.randint(3, 6)):
            self.statement(self.pick(2, 2, 3))
        last = {one.name: one for one in self.scopes[-1]}
        for name in last:
            self.emit('show(%s);' % name)
        self.emit('return %s;' % self.full().text)
        self.indent -= 1
        self.scopes.pop()
        self.emit('}')


def make(count, seed):
    made = left_out = differ = broken = 0
    print('# Written by tests/outside/scalars/generate.py %d %d; outputs and statuses are those of gcc -O0 and clang -O1 with their' % (count, seed))
    print('# sanitizers, and of gcc -O2, for RV32IM under qemu-riscv32.')
    chance = random.Random(seed)
    while made < count:
        source = Maker(chance).program()
        data = bytes(chance.randrange(256) for _ in range(chance.choice([0, 1, 3, 8])))
        ending, output, spent = ticks.Machine(source).run(20000, data)
        if ending[0] == 'ticks used' or spent < 300:
            left_out += 1
            continue
        if ending[0] != 'ended':
            print('UNDEFINED', ending, source, file=sys.stderr)
            differ += 1
            continue
        try:
            answers = outsiders.all_of_them(source, data)
        except subprocess.CalledProcessError:
            print('BROKEN', source, file=sys.stderr)
            broken += 1
            continue
        if answers != [(ending[1], output)]:
            print('DIFFERS', source, data, ending, output, answers, file=sys.stderr)
            differ += 1
            continue
        made += 1
        print('=== random_%d | %d | %d | %s | %s' % (made, ending[1], spent, others.shown(data), others.shown(output)))
        print(source, end='', flush=True)
    print('%d programs of too many or too few ticks were left out, %d on which not all agree, %d which a compiler broke down on' %
          (left_out, differ, broken), file=sys.stderr)


if __name__ == '__main__':
    ticks.deep(lambda: make(int(sys.argv[1]), int(sys.argv[2])))
