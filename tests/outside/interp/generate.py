#!/usr/bin/env python3
"""Random programs that do nothing undefined, by construction: `generate.py COUNT SEED >random.txt`.

Each expression carries an interval in which its value lies and the objects that it reads and writes. Where an operation could leave
its type, a divisor be zero or a subscript lie outside, the operand is reduced first; where two operands without an order touch one
object and one of them writes it, the second gives way to a constant. Each object has its own interval, which every assignment keeps.
What a program comes to is asked of gcc and clang (`others.py`) and its ticks of `ticks.py`; a program of more than 20,000 ticks is left out.
"""
import random
import subprocess
import sys

import others
import ticks

KINDS = ['_Bool', 'char', 'signed char', 'unsigned char', 'short', 'unsigned short', 'int', 'int', 'int', 'unsigned', 'unsigned', 'long', 'unsigned long']
LEVELS = {'*': 13, '/': 13, '%': 13, '+': 12, '-': 12, '<<': 11, '>>': 11, '<': 10, '>': 10, '<=': 10, '>=': 10, '==': 9, '!=': 9,
          '&': 8, '^': 7, '|': 6, '&&': 5, '||': 4}
COMMA, ASSIGNMENT, CONDITIONAL, UNARY, PRIMARY = 0, 1, 2, 14, 16


def bounds(kind):
    bits = 8 * ticks.SIZES[kind]
    if kind == '_Bool':
        return 0, 1
    return (0, 2 ** bits - 1) if kind in ticks.UNSIGNED else (-2 ** (bits - 1), 2 ** (bits - 1) - 1)


class Expression:
    def __init__(self, text, kind, low, high, level=PRIMARY, reads=(), writes=()):
        self.text, self.kind, self.low, self.high, self.level = text, kind, low, high, level
        self.reads, self.writes = frozenset(reads), frozenset(writes)

    def at(self, level):
        """Its text as an operand of such a level."""
        return self.text if self.level >= level else '(%s)' % self.text

    def converted(self, kind):
        low, high = bounds(kind)
        return (self.low, self.high) if low <= self.low and self.high <= high else (low, high)

    def made(self, text, kind, low, high, level, *others_of_it):
        """An expression over this and others, with their effects."""
        reads, writes = self.reads, self.writes
        for one in others_of_it:
            reads, writes = reads | one.reads, writes | one.writes
        return Expression(text, kind, low, high, level, reads, writes)


class Object:
    def __init__(self, name, kind, low, high, lengths=(), array_parameter=False):
        self.name, self.kind, self.low, self.high, self.lengths = name, kind, low, high, lengths
        self.array_parameter, self.locked = array_parameter, False
        self.key = 'arrays' if lengths else id(self)


class Function:
    def __init__(self, name, result, parameters, recursive):
        self.name, self.result, self.parameters, self.recursive = name, result, parameters, recursive
        self.reads, self.writes = set(), set()


class Maker:
    def __init__(self, chance):
        self.chance, self.lines, self.scopes, self.functions = chance, [], [[]], []
        self.indent = self.made = self.loops = self.labels = self.subscripts = 0
        self.current = None
        self.enumerators = []

    def pick(self, *all_of_them):
        return self.chance.choice(all_of_them)

    def happens(self, share):
        return self.chance.random() < share

    def emit(self, text):
        self.lines.append('    ' * self.indent + text)

    def name(self, letter):
        self.made += 1
        return '%s%d' % (letter, self.made)

    def visible(self):
        found = {}
        for scope in self.scopes:
            for one in scope:
                found[one.name] = one
        return list(found.values())

    # ---- expressions

    def constant(self, kind=None):
        value = self.pick(0, 1, 2, 3, 5, 7, 10, 16, 31, 100, 127, 128, 255, 256, 1000, 32767, 65535, 2147483647, self.chance.randrange(1 << 31))
        form = self.chance.randrange(9)
        if form == 0:
            value = self.chance.randrange(1 << 32)
            return Expression('0x%x%s' % (value, self.pick('u', 'U')), 'unsigned', value, value)
        if form == 1:
            return Expression('%du' % value, 'unsigned', value, value)
        if form == 2:
            return Expression('%d%s' % (value, self.pick('l', 'L')), 'long', value, value)
        if form == 3:
            return Expression('0%o' % value if value else '0', 'int', value, value)
        if form == 4:
            letter = self.pick('A', 'z', '0', '\\n', '\\377', '\\x80', '\\0', '\\\\', ' ')
            value = {'\\n': 10, '\\377': 255, '\\x80': 128, '\\0': 0, '\\\\': 92}.get(letter, ord(letter[0]))
            return Expression("'%s'" % letter, 'int', value, value)
        if form == 5 and self.enumerators:
            name, value = self.chance.choice(self.enumerators)
            return Expression(name, 'int', value, value)
        if form == 6:
            value = self.chance.randrange(1 << 32)
            return Expression('%dul' % value, 'unsigned long', value, value)
        return Expression(str(value), 'int', value, value)

    def measured(self):
        """A sizeof: its operand is not evaluated."""
        kind = self.chance.choice(KINDS)
        arrays = [one for one in self.visible() if one.lengths and not one.array_parameter]
        if arrays and self.happens(0.5):
            one = self.chance.choice(arrays)
            size = ticks.SIZES[one.kind]
            for length in one.lengths:
                size *= length
            return Expression(self.pick('sizeof %s', 'sizeof(%s)') % one.name, 'unsigned', size, size, UNARY)
        if self.happens(0.3):
            return Expression('sizeof(%s[3])' % kind, 'unsigned', 3 * ticks.SIZES[kind], 3 * ticks.SIZES[kind], UNARY)
        return Expression('sizeof(%s)' % kind, 'unsigned', ticks.SIZES[kind], ticks.SIZES[kind], UNARY)

    def apart(self, first, second):
        """The second operand, or a constant where it may not stand beside the first without an order."""
        if first.writes & (second.reads | second.writes) or second.writes & first.reads:
            return self.constant()
        return second

    def within(self, one, limit):
        """One, reduced to at most so much either way."""
        if -limit <= one.low and one.high <= limit:
            return one
        if one.kind in ticks.UNSIGNED or self.happens(0.3):
            mask = (1 << limit.bit_length() - 1) - 1
            kind = ticks.usual(one.kind, 'int')
            return one.made('%s & %d' % (one.at(9), mask), kind, 0, mask, 8)
        return one.made('%s %% %d' % (one.at(13), limit + 1), ticks.usual(one.kind, 'int'), 0 if one.low >= 0 else -limit, 0 if one.high <= 0 else limit, 13)

    def index(self, length):
        self.subscripts += 1
        one = self.expression(1 if self.subscripts == 1 else 0)
        self.subscripts -= 1
        if 0 <= one.low and one.high < length:
            return one
        if length & (length - 1) == 0:
            return one.made('%s & %d' % (one.at(9), length - 1), ticks.usual(one.kind, 'int'), 0, length - 1, 8)
        return one.made('(unsigned)%s %% %du' % (one.at(UNARY), length), 'unsigned', 0, length - 1, 13)

    def place(self, writable):
        """An element and its object, or none."""
        found = [one for one in self.visible() if not (writable and one.locked or self.subscripts > 1 and one.lengths)]
        if not found:
            return None
        one = self.chance.choice(found)
        place = Expression(one.name, one.kind, one.low, one.high, PRIMARY, () if one.lengths else (one.key,))
        for length in one.lengths:
            at = self.apart(place, self.index(length))
            if not 0 <= at.low <= at.high < length:
                at = Expression(str(self.chance.randrange(length)), 'int', 0, 0)
            place = place.made('%s[%s]' % (place.text, at.text), one.kind, one.low, one.high, 15, at)
        if one.lengths:
            place = Expression(place.text, one.kind, one.low, one.high, 15, place.reads | {'arrays'}, place.writes)
        return place, one

    def expression(self, depth):
        if depth <= 0 or self.happens(0.12):
            form = self.chance.random()
            found = self.place(False) if form < 0.7 else None
            return found[0] if found else self.measured() if form > 0.95 else self.constant()
        form = self.pick(*['binary'] * 8, *['compared'] * 2, *['logical'] * 2, 'unary', 'unary', 'cast', 'cast', 'chosen', 'called', 'called', 'stepped', 'assigned', 'sequence', 'got', 'digit')
        return getattr(self, form)(depth - 1)

    def binary(self, depth):
        left = self.expression(depth)
        right = self.apart(left, self.expression(depth))
        operator = self.pick('+', '-', '*', '+', '-', '*', '/', '%', '<<', '>>', '&', '|', '^')
        if operator in ('/', '%'):
            right = self.divisor(right)
        if operator in ('<<', '>>'):
            return self.shift(operator, left, right)
        kind = ticks.usual(left.kind, right.kind)
        if kind not in ticks.UNSIGNED and operator in '+-*' and self.reach(operator, left, right, kind) is None:
            limit = 30000 if operator == '*' else 1000000000
            left, right = self.within(left, limit), self.within(right, limit)
            kind = ticks.usual(left.kind, right.kind)
        low, high = self.reach(operator, left, right, kind)
        level = LEVELS[operator]
        return left.made('%s %s %s' % (left.at(level), operator, right.at(level + 1)), kind, low, high, level, right)

    def reach(self, operator, left, right, kind):
        """The interval of the result, or none where it may leave a signed type."""
        (a, b), (c, d) = left.converted(kind), right.converted(kind)
        low, high = bounds(kind)
        if operator in '+-*':
            ends = {'+': [a + c, b + d], '-': [a - d, b - c], '*': [a * c, a * d, b * c, b * d]}[operator]
            if low <= min(ends) and max(ends) <= high:
                return min(ends), max(ends)
            return (low, high) if kind in ticks.UNSIGNED else None
        if operator == '/':
            return (0, b) if a >= 0 else (a, max(b, 0))
        if operator == '%':
            return (0 if a >= 0 else 1 - d, d - 1)
        if a >= 0 and c >= 0:
            return 0, min(b, d) if operator == '&' else (1 << max(b, d).bit_length()) - 1
        if operator == '&' and (a >= 0 or c >= 0):
            return 0, b if a >= 0 else d
        return low, high

    def divisor(self, one):
        if self.happens(0.4):
            value = self.chance.randint(1, 100)
            return Expression(str(value), 'int', value, value)
        return one.made('(%s & 15) + 1' % one.at(9), ticks.usual(one.kind, 'int'), 1, 16, 12)

    def shift(self, operator, left, right):
        kind = ticks.promote(left.kind)
        most = 31 if operator == '>>' or kind in ticks.UNSIGNED else 7
        count = right.made('%s & %d' % (right.at(9), most), ticks.usual(right.kind, 'int'), 0, most, 8)
        if self.happens(0.4):
            count = Expression(str(self.chance.randint(0, most)), 'int', 0, most)
        if most == 7:
            left = left.made('%s & 65535' % left.at(9), ticks.usual(left.kind, 'int'), 0, 65535, 8)
            kind = ticks.promote(left.kind)
        low, high = bounds(kind)
        if operator == '>>':
            low, high = min(left.low, 0), max(left.high, 0)
            low, high = max(low, bounds(kind)[0]), min(high, bounds(kind)[1])
        elif kind not in ticks.UNSIGNED:
            low, high = 0, 65535 << 7
        return left.made('%s %s %s' % (left.at(11), operator, count.at(12)), kind, low, high, 11, count)

    def compared(self, depth):
        left = self.expression(depth)
        right = self.apart(left, self.expression(depth))
        operator = self.pick('<', '>', '<=', '>=', '==', '!=')
        level = LEVELS[operator]
        return left.made('%s %s %s' % (left.at(level), operator, right.at(level + 1)), 'int', 0, 1, level, right)

    def logical(self, depth):
        left, right = self.expression(depth), self.expression(depth)
        operator = self.pick('&&', '||')
        level = LEVELS[operator]
        return left.made('%s %s %s' % (left.at(level), operator, right.at(level + 1)), 'int', 0, 1, level, right)

    def unary(self, depth):
        one = self.expression(depth)
        operator = self.pick('-', '~', '!', '+')
        kind = ticks.promote(one.kind)
        if operator == '!':
            return one.made('!' + one.at(UNARY), 'int', 0, 1, UNARY)
        if operator == '-' and kind not in ticks.UNSIGNED and one.low == -2 ** 31:
            one = self.within(one, 1000000)
            kind = ticks.promote(one.kind)
        low, high = {'+': (one.low, one.high), '-': (-one.high, -one.low), '~': (~one.high, ~one.low)}[operator]
        if kind in ticks.UNSIGNED and operator != '+':
            low, high = bounds(kind)
        return one.made('%s%s' % (operator, one.text if one.level >= UNARY and one.text[0] not in '+-' else '(%s)' % one.text), kind, low, high, UNARY)

    def cast(self, depth):
        one, kind = self.expression(depth), self.chance.choice(KINDS)
        return one.made('(%s)%s' % (kind, one.at(UNARY)), kind, *one.converted(kind), UNARY)

    def chosen(self, depth):
        test, then, other = self.expression(depth), self.expression(depth), self.expression(depth)
        kind = ticks.usual(then.kind, other.kind)
        (a, b), (c, d) = then.converted(kind), other.converted(kind)
        return test.made('%s ? %s : %s' % (test.at(4), then.text, other.at(CONDITIONAL)), kind, min(a, c), max(b, d), CONDITIONAL, then, other)

    def sequence(self, depth):
        left, right = self.expression(depth), self.expression(depth)
        return left.made('%s, %s' % (left.text, right.at(ASSIGNMENT)), right.kind, right.low, right.high, COMMA, right)

    def got(self, depth):
        if self.current is None:
            return self.constant()
        return Expression('rv_getbyte()', 'int', -1, 255, 15, ['port'], ['port'])

    def digit(self, depth):
        text = self.pick('0123456789abcdef', 'Zikorape of 16..')
        at = self.index(16)
        return at.made('"%s"[%s]' % (text, at.text), 'char', 0, 255, 15)

    def stepped(self, depth):
        found = self.place(True)
        if not found or not self.free(found[1]):
            return self.expression(depth)
        place, one = found
        operator = self.pick('++', '--')
        low, high = bounds(one.kind)
        text, level = (place.text + operator, 15) if self.happens(0.5) else (operator + place.text, UNARY)
        return Expression(text, one.kind, low, high, level, place.reads, place.writes | {one.key})

    def free(self, one):
        """Whether `++` and sums of it stay defined: it may take every value of an unsigned or a small type."""
        return (one.low, one.high) == bounds(one.kind) and one.kind not in ('int', 'long')

    def kept(self, one, value):
        """The value, reduced to the object's own interval."""
        low, high = value.converted(one.kind)
        if one.low <= low and high <= one.high:
            return value
        if one.low == 0:
            return value.made('%s & %d' % (value.at(9), one.high), ticks.usual(value.kind, 'int'), 0, one.high, 8)
        return value.made('(int)%s %% %d' % (value.at(UNARY), one.high + 1), 'int', -one.high, one.high, 13)

    def assigned(self, depth):
        found = self.place(True)
        if not found:
            return self.expression(depth)
        place, one = found
        value = self.apart(place, self.expression(depth))
        if one.key in value.writes or value.writes & place.reads:
            value = self.constant()
        if self.happens(0.4):
            return self.compound(place, one, value)
        value = self.kept(one, value)
        return place.made('%s = %s' % (place.text, value.at(ASSIGNMENT)), one.kind, one.low, one.high, ASSIGNMENT, value,
                          Expression('', 'int', 0, 0, 0, (), [one.key]))

    def compound(self, place, one, value):
        operators = ['&'] if one.low == 0 else []
        if (one.low, one.high) == bounds(one.kind):
            operators = ['&', '|', '^', '/', '%', '>>'] + (['+', '-', '*', '<<', '+', '-', '*'] if self.free(one) else [])
        if not operators:
            value = self.kept(one, value)
            operator = ''
        else:
            operator = self.chance.choice(operators)
        if operator in ('/', '%'):
            value = self.divisor(value)
        elif operator in ('<<', '>>'):
            if operator == '<<' and one.kind not in ('unsigned', 'unsigned long') and one.low < 0:
                operator = '>>'
            value = Expression(str(self.chance.randint(0, 7)), 'int', 0, 7)
        elif operator and operator in '+-*' and ticks.usual(one.kind, value.kind) not in ticks.UNSIGNED:
            value = self.within(value, 10000)
        return place.made('%s %s= %s' % (place.text, operator, value.at(ASSIGNMENT)), one.kind, one.low, one.high, ASSIGNMENT, value,
                          Expression('', 'int', 0, 0, 0, (), [one.key]))

    def called(self, depth, void=False):
        wanted = [one for one in self.functions if (one.result == 'void') == void and (one is not self.current or one.recursive)]
        if not wanted or self.loops > 1:
            return None if void else self.expression(depth)
        return self.call(self.chance.choice(wanted), depth) or (None if void else self.constant())

    def call(self, function, depth):
        whole = Expression('', 'int', 0, 0, 15)
        texts = []
        for k, one in enumerate(function.parameters):
            if one.lengths:
                argument = self.array_argument(one)
                if argument is None:
                    return None
            elif k == 0 and function.recursive:
                argument = Expression('n - 1', 'int', 0, 5, 12, ['n']) if function is self.current else Expression(str(self.chance.randint(0, 4)), 'int', 0, 4)
            else:
                argument = self.kept(one, self.apart(whole, self.expression(depth)))
            texts.append(argument.at(ASSIGNMENT))
            whole = whole.made('', 'int', 0, 0, 15, argument)
        if (whole.writes & (function.writes | function.reads)) or function is self.current and whole.writes:
            return None
        low, high = (0, 0) if function.result == 'void' else bounds(function.result)
        own = Expression('', 'int', 0, 0, 15, function.reads, function.writes)
        return whole.made('%s(%s)' % (function.name, ', '.join(texts)), function.result, low, high, 15, own)

    def array_argument(self, parameter):
        found = []
        for one in self.visible():
            if one.kind != parameter.kind or one.locked > parameter.locked or not one.lengths:
                continue
            if len(one.lengths) == len(parameter.lengths) and one.lengths[0] >= parameter.lengths[0] and one.lengths[1:] == parameter.lengths[1:]:
                found.append(one.name)
            elif len(one.lengths) == 2 and len(parameter.lengths) == 1 and one.lengths[1] >= parameter.lengths[0]:
                found.append('%s[%d]' % (one.name, self.chance.randrange(one.lengths[0])))
        if parameter.kind == 'char' and parameter.locked and len(parameter.lengths) == 1:
            found.append('"%s"' % self.pick('Abstract machine', 'of C\\n and so on', 'sixteen letters.'))
        return Expression(self.chance.choice(found), 'int', 0, 0, PRIMARY) if found else None

    # ---- declarations

    def interval(self, kind):
        low, high = bounds(kind)
        if kind in ('int', 'long', 'unsigned') and self.happens(0.5):
            return self.pick((0, 255), (0, 1023), (-1000, 1000), (-30000, 30000)) if kind != 'unsigned' else (0, 4095)
        return low, high

    def new(self, letter, dimensions):
        kind = self.chance.choice(KINDS)
        lengths = tuple(self.pick(2, 3, 4, 5, 8) for _ in range(dimensions))
        name = self.name(letter)
        if letter == 'v' and self.happens(0.1):
            hidden = [one.name for scope in self.scopes[:2] for one in scope if one.name[0] == 'g']
            taken = {one.name for one in self.scopes[-1]}
            name = self.chance.choice([one for one in hidden if one not in taken] or [name])
        return Object(name, kind, *self.interval(kind), lengths)

    def literal(self, one):
        """A constant of the object's own interval."""
        value = self.pick(one.low, one.high, self.chance.randint(one.low, one.high), self.chance.randint(max(one.low, -9), min(one.high, 99)), 0)
        if value == -2 ** 31:
            return '-2147483647 - 1'
        return '%du' % value if value > 2 ** 31 - 1 else str(value)

    def listed(self, one, lengths):
        if not lengths:
            return self.literal(one)
        return '{%s}' % ', '.join(self.listed(one, lengths[1:]) for _ in range(self.chance.randint(1, lengths[0])))

    def declare(self, one, static):
        brackets = ''.join('[%d]' % length for length in one.lengths)
        if one.lengths and self.happens(0.15) and one.kind in ('char', 'unsigned char', 'signed char') and len(one.lengths) == 1:
            first = self.pick('"%s"', '{"%s"}') % ('abcdefgh'[:self.chance.randint(0, one.lengths[0])])
        elif one.lengths or static or one.name[0] == 'g':
            first = self.listed(one, one.lengths)
        else:
            first = self.effect(self.kept(one, self.expression(2))).at(ASSIGNMENT)
        if static and self.happens(0.3):
            self.emit('%s%s %s%s;' % (self.pick('static ', '') if not self.indent else 'static ', one.kind, one.name, brackets))
        else:
            self.emit('%s%s %s%s = %s;' % ('static ' if static and (self.indent or self.happens(0.3)) else '', one.kind, one.name, brackets, first))
        self.scopes[-1].append(one)

    def local(self):
        form = self.chance.random()
        one = self.new('v', 0 if form < 0.6 else 1 if form < 0.85 else 2)
        if self.happens(0.15):
            return self.declare(Object(self.name('s'), one.kind, one.low, one.high, one.lengths), True)
        if one.lengths and self.happens(0.3):
            return self.filled(one)
        if not one.lengths and self.happens(0.2):
            self.emit('%s %s;' % (one.kind, one.name))
            value = self.kept(one, self.constant())
            self.emit('%s = %s;' % (one.name, value.at(ASSIGNMENT)))
            return self.scopes[-1].append(one)
        self.declare(one, False)

    def filled(self, one):
        """An array that a loop fills."""
        self.emit('%s %s%s;' % (one.kind, one.name, ''.join('[%d]' % length for length in one.lengths)))
        names = [self.name('i') for _ in one.lengths]
        for depth, (name, length) in enumerate(zip(names, one.lengths)):
            self.indent += depth
            self.emit('for (int %s = 0; %s < %d; %s++)' % (name, name, length, name))
            self.indent -= depth
        value = Expression('%s * %d' % (names[0], self.chance.randint(1, 9)), 'int', 0, 200, 13)
        self.indent += len(names)
        self.emit('%s%s = %s;' % (one.name, ''.join('[%s]' % name for name in names), self.kept(one, value).text))
        self.indent -= len(names)
        self.scopes[-1].append(one)

    # ---- statements

    def effect(self, one):
        """The expression's effects are its function's too."""
        if self.current:
            self.current.reads |= one.reads
            self.current.writes |= one.writes
        return one

    def full(self, depth=3):
        return self.effect(self.expression(self.chance.randint(1, depth)))

    def block(self, count, depth, result='void'):
        self.scopes.append([])
        self.indent += 1
        for _ in range(self.pick(0, 0, 1, 2)):
            self.local()
        for _ in range(count):
            self.statement(depth)
        if result != 'void':
            self.emit('return %s;' % self.full().text)
        self.indent -= 1
        self.scopes.pop()

    def statement(self, depth):
        form = self.pick(*['assign'] * 6, 'put', 'put', 'void_call', 'step_up', 'empty', *['branch', 'loop', 'loop', 'switch', 'nested', 'leave'] * (depth > 0))
        getattr(self, form + '_statement')(depth - 1)

    def assign_statement(self, depth):
        self.emit(self.effect(self.assigned(3)).text + ';')

    def put_statement(self, depth):
        value = self.full()
        self.effect(Expression('', 'int', 0, 0, 0, ['port'], ['port']))
        self.emit('rv_putbyte(%s);' % value.at(ASSIGNMENT))

    def void_call_statement(self, depth):
        found = self.called(1, self.happens(0.7))
        if found:
            self.emit(self.pick('%s;', '(void)%s;') % self.effect(found).at(UNARY))

    def step_up_statement(self, depth):
        self.emit(self.effect(self.stepped(0)).text + ';')

    def empty_statement(self, depth):
        self.emit(self.pick(';', '{ }'))

    def branch_statement(self, depth):
        self.emit('if (%s) {' % self.full().text)
        self.block(self.chance.randint(1, 2), depth)
        if self.happens(0.5):
            self.emit('} else {')
            self.block(self.chance.randint(1, 2), depth)
        self.emit('}')

    def nested_statement(self, depth):
        self.emit('{')
        self.block(self.chance.randint(1, 3), depth)
        self.emit('}')

    def leave_statement(self, depth):
        """A loop, switch or function is left, on a condition."""
        forms = ['break', 'continue'] if self.loops else ['break'] if self.labels else []
        if self.happens(0.2) or not forms:
            if self.current and self.current.result == 'void':
                forms = ['return']
            elif self.current and self.current.result:
                forms = ['return ' + self.full().text]
        if self.happens(0.03):
            forms = ['rv_exit(%s)' % self.full().at(ASSIGNMENT)]
            self.effect(Expression('', 'int', 0, 0, 0, ['port'], ['port']))
        if forms:
            self.emit('if (%s)' % self.full(2).text)
            self.emit('    %s;' % self.chance.choice(forms))

    def loop_statement(self, depth):
        name, count = self.name('i'), self.chance.randint(0, 5)
        counter = Object(name, 'int', 0, 6)
        counter.locked = True
        outer = self.loops
        if self.loops > 2:
            return self.assign_statement(depth)
        form = self.pick('for', 'for', 'down', 'while', 'do', 'endless')
        self.scopes.append([counter])
        self.loops += 1
        heads = {
            'for': 'for (int %s = 0; %s < %d; %s) {' % (name, name, count, self.pick(name + '++', '++' + name, name + ' += 1', '%s = %s + 1' % (name, name))),
            'down': 'for (int %s = %d; %s; %s--) {' % (name, count, name, name),
            'endless': 'for (int %s = 0; ; %s++) {' % (name, name),
            'while': 'while (%s++ < %d) {' % (name, count),
            'do': 'do {',
        }
        if form in ('while', 'do'):
            self.emit('{')
            self.indent += 1
            self.emit('int %s = 0;' % name)
        self.emit(heads[form])
        if form == 'endless':
            self.emit('    if (%s >= %d)' % (name, count))
            self.emit('        break;')
        if form == 'do':
            self.loops, inner = 1, self.loops
            self.block(self.chance.randint(1, 3), depth)
            self.loops = inner
            self.emit('} while (++%s < %d);' % (name, count))
        else:
            self.block(self.chance.randint(1, 3), depth)
            self.emit('}')
        if form in ('while', 'do'):
            self.indent -= 1
            self.emit('}')
        self.loops = outer
        self.scopes.pop()

    def switch_statement(self, depth):
        one = self.full(2)
        self.emit('switch (%s) {' % (self.within(one, 7).text if self.happens(0.7) else one.text))
        self.labels += 1
        cases = self.chance.sample(range(-7, 8), self.chance.randint(1, 6))
        default = self.chance.randrange(len(cases) + 2)
        for k, case in enumerate(cases):
            if k == default:
                self.emit('default:')
            self.emit('case %s:' % self.pick(str(case), '%d + %d' % (case - 1, 1), '%d' % case))
            if self.happens(0.8):
                self.scopes.append([])
                self.indent += 1
                self.statement(depth)
                if self.happens(0.6):
                    self.emit('break;')
                self.indent -= 1
                self.scopes.pop()
        self.emit('    ;')
        self.emit('}')
        self.labels -= 1

    # ---- functions

    def parameter(self):
        form = self.chance.random()
        one = self.new('p', 0 if form < 0.7 else 1 if form < 0.9 else 2)
        low, high = bounds(one.kind)
        if one.lengths:
            one = Object(one.name, self.pick('int', 'char', one.kind), 0, 0, one.lengths, True)
            one.low, one.high = bounds(one.kind)
            if len(one.lengths) == 1 and self.happens(0.4):
                one.locked = True
            return one
        one.low, one.high = low, high
        return one

    def spelt(self, one):
        if not one.lengths:
            return '%s %s' % (one.kind, one.name)
        inner = ''.join('[%d]' % length for length in one.lengths[1:])
        return '%s%s %s[%s]%s' % ('const ' if one.locked else '', one.kind, one.name, self.pick('', str(one.lengths[0])), inner)

    def function(self):
        recursive = self.happens(0.3)
        parameters = [self.parameter() for _ in range(self.pick(0, 1, 1, 2, 2, 3, 9))]
        if recursive:
            depth = Object('n', 'int', 0, 5)
            depth.locked = True
            depth.key = 'n'
            parameters.insert(0, depth)
        result = 'void' if self.happens(0.2) else self.chance.choice(KINDS)
        made = Function(self.name('f'), result, parameters, recursive)
        head = '%s%s %s(%s)' % (self.pick('', 'static '), result, made.name, ', '.join(self.spelt(one) for one in parameters) or 'void')
        if self.happens(0.3):
            self.emit(head + ';')
        self.emit(head + ' {')
        self.current = made
        self.scopes.append(list(parameters))
        keys = {one.key for scope in self.scopes[:1] for one in scope}
        if recursive:
            made.reads, made.writes = keys | {'arrays', 'port', 'statics', 'n'}, keys | {'arrays', 'port', 'statics'}
            self.functions.append(made)
            self.emit('    if (n <= 0)')
            self.emit('        return%s;' % ('' if result == 'void' else ' ' + self.full(2).text))
        self.block(self.chance.randint(1, 4), 2, result)
        self.emit('}')
        self.emit('')
        self.scopes.pop()
        kept = keys | {'arrays', 'port', 'statics'}
        made.reads, made.writes = (made.reads & kept) | {'statics'}, (made.writes & kept) | {'statics'}
        if not recursive:
            self.functions.append(made)
        self.current = None

    def program(self):
        self.emit('#include <rvio.h>')
        names = [self.name('E') for _ in range(3)]
        self.emit('enum kind { %s = -%d, %s, %s = %d };' % (names[0], self.chance.randint(1, 9), names[1], names[2], self.chance.randint(1, 300)))
        low = -int(self.lines[-1].split('-')[1].split(',')[0])
        self.enumerators = [(names[0], low), (names[1], low + 1), (names[2], int(self.lines[-1].split('=')[2].split()[0]))]
        for _ in range(self.chance.randint(3, 7)):
            self.declare(self.new('g', self.pick(0, 0, 0, 1, 1, 2)), True)
        shown = list(self.scopes[0])
        self.emit('static void show(unsigned long value) {')
        self.emit('    for (int k = 0; k < 8; k++, value <<= 4)')
        self.emit('        rv_putbyte("0123456789abcdef"[value >> 28]);')
        self.emit('    rv_putbyte(\'\\n\');')
        self.emit('}')
        for _ in range(self.chance.randint(1, 4)):
            self.function()
        self.main(shown)
        return '\n'.join(self.lines) + '\n'

    def main(self, shown):
        self.current = Function('main', '', [], False)
        self.emit('int main(void) {')
        self.scopes.append([])
        self.indent += 1
        for _ in range(self.chance.randint(1, 3)):
            self.local()
        for _ in range(self.chance.randint(3, 7)):
            self.statement(3)
        hidden = {one.name for one in self.scopes[-1]}
        for one in shown:
            if one.name not in hidden:
                self.emit('show(%s%s);' % (one.name, ''.join('[%d]' % self.chance.randrange(length) for length in one.lengths)))
        self.emit('return %s;' % self.full().text)
        self.indent -= 1
        self.scopes.pop()
        self.emit('}')


def make(count, seed):
    made = left_out = differ = broken = 0
    print('# Written by tests/outside/interp/generate.py %d %d; outputs and statuses are those of gcc -O0, gcc -O2 and clang -O1 for RV32IM under qemu-riscv32.' % (count, seed))
    chance = random.Random(seed)
    while made < count:
        source = Maker(chance).program()
        data = bytes(chance.randrange(256) for _ in range(chance.choice([0, 1, 3, 8])))
        ending, output, spent = ticks.Machine(source).run(20000, data)
        if ending[0] == 'ticks used' or spent < 200:
            left_out += 1
            continue
        assert ending[0] == 'ended', (source, ending)
        try:
            answers = others.all_of_them(source, data)
        except subprocess.CalledProcessError:
            broken += 1
            continue
        if answers != [(ending[1], output)]:
            print('DIFFERS', source, data, ending, output, answers, file=sys.stderr)
            differ += 1
            continue
        status, written = answers[0]
        made += 1
        print('=== random_%d | %d | %d | %s | %s' % (made, status, spent, others.shown(data), others.shown(written)))
        print(source, end='')
    print('%d programs of too many or too few ticks were left out, %d on which not all agree, %d which a compiler broke down on' % (left_out, differ, broken), file=sys.stderr)


if __name__ == '__main__':
    ticks.deep(lambda: make(int(sys.argv[1]), int(sys.argv[2])))
