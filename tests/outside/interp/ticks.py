#!/usr/bin/env python3
"""The abstract machine of ISO/IEC 9899:2011 5.1.2.3 with this profile's choices and its clock: `ticks.py FILE [N] <INPUT`.

It prints how the run ends and after how many ticks; the program's output goes to standard output. It shares no text with
the compiler: it was written from the profile's rules.
"""
import sys
import threading

import reading

SIZES = {'_Bool': 1, 'char': 1, 'signed char': 1, 'unsigned char': 1, 'short': 2, 'unsigned short': 2,
         'int': 4, 'unsigned': 4, 'long': 4, 'unsigned long': 4}
UNSIGNED = {'_Bool', 'char', 'unsigned char', 'unsigned short', 'unsigned', 'unsigned long'}
BUILT_IN = {'rv_getbyte', 'rv_putbyte', 'rv_exit'}


class Ended(Exception):
    """The run has ended with a status."""


class Undefined(Exception):
    """Undefined act and its place."""


class TicksUsed(Exception):
    pass


class Left(Exception):
    """A statement is left: by `break`, `continue` or `return`, perhaps with a value."""


def convert(kind, value):
    if kind == '_Bool':
        return int(value != 0)
    bits = 8 * SIZES[kind]
    value &= (1 << bits) - 1
    return value if kind in UNSIGNED or value >> (bits - 1) == 0 else value - (1 << bits)


def promote(kind):
    return kind if kind in ('int', 'unsigned', 'long', 'unsigned long') else 'int'


def usual(left, right):
    left, right = promote(left), promote(right)
    if left == right:
        return left
    if 'unsigned long' in (left, right) or {left, right} == {'unsigned', 'long'}:
        return 'unsigned long'
    return 'unsigned' if 'unsigned' in (left, right) else 'long'


def in_range(kind, value, place):
    if kind in UNSIGNED:
        return value & 0xffffffff
    if not -2 ** 31 <= value < 2 ** 31:
        raise Undefined(1, place)
    return value


def shifted(operator, kind, left, count, place):
    if not 0 <= count < 32:
        raise Undefined(3, place)
    if operator == '>>':
        return left >> count
    if kind in UNSIGNED:
        return (left << count) & 0xffffffff
    if left < 0 or left << count >= 2 ** 31:
        raise Undefined(4, place)
    return left << count


def divided(operator, kind, left, right, place):
    if right == 0:
        raise Undefined(2, place)
    quotient = abs(left) // abs(right) * (1 if (left < 0) == (right < 0) else -1)
    in_range(kind, quotient, place)
    return quotient if operator == '/' else left - quotient * right


def operate(operator, kind, left, right, place):
    """A binary operator on two values of one type (of a shift: the left operand's)."""
    if operator in ('<<', '>>'):
        return shifted(operator, kind, left, right, place)
    if operator in ('/', '%'):
        return divided(operator, kind, left, right, place)
    if operator in ('&', '|', '^'):
        return left & right if operator == '&' else left | right if operator == '|' else left ^ right
    if operator in ('+', '-', '*'):
        return in_range(kind, left + right if operator == '+' else left - right if operator == '-' else left * right, place)
    return int({'==': left == right, '!=': left != right, '<': left < right, '>': left > right, '<=': left <= right, '>=': left >= right}[operator])


class Machine:
    """A program and its run. An expression becomes a pair of its type and what it does to a frame; a place a triple of its
    elements' type, its lengths and what gives (elements, offset, lengths, whether they are those of a string literal)."""

    def __init__(self, source, file='main.c'):
        self.clock = 1 << 62
        self.output = bytearray()
        self.input = b''
        self.functions = {}
        self.results = {}
        self.first = {}
        self.scopes = [{}]
        self.slots, self.objects, self.result = 0, [], None
        self.bodies = []
        for declaration in reading.read(source, file):
            self.at_file_scope(declaration)
        for name, parameters, body in self.bodies:
            self.define(name, parameters, body)
        self.clock = 0

    def run(self, ticks, data):
        """How it ends, its output, the ticks spent."""
        self.clock, self.input, self.output = ticks, data, bytearray()
        for cell, first in self.first.values():
            cell[:] = first
        try:
            value = self.call('main', [])
            ending = 'ended', convert('unsigned char', value or 0)
        except Ended as end:
            ending = 'ended', end.args[0]
        except Undefined as act:
            ending = ('undefined', *act.args)
        except TicksUsed:
            ending = ('ticks used',)
        return ending, bytes(self.output), ticks - self.clock

    def tick(self):
        if self.clock == 0:
            raise TicksUsed
        self.clock -= 1

    def spend(self, count):
        for _ in range(count):
            self.tick()

    # ---- declarations

    def constant(self, tree):
        return self.value(tree)[1](None)

    def shape(self, lengths, initialiser):
        found = [None if one is None else self.constant(one) for one in lengths]
        if found and found[0] is None:
            if initialiser is None:
                found[0] = 1
            elif initialiser[0] == 'string':
                found[0] = len(initialiser[2]) + 1
            elif initialiser[2] and initialiser[2][0][0] == 'string' and len(found) == 1:
                found[0] = len(initialiser[2][0][2]) + 1
            else:
                found[0] = len(initialiser[2])
        return found

    def enumerators(self, all_of_them):
        value = -1
        for one in all_of_them:
            if one:
                value = self.constant(one[1]) if one[1] else value + 1
                self.scopes[-1][one[0]] = ('enumerator', value)

    def at_file_scope(self, declaration):
        if declaration[0] == 'function':
            _, place, specifiers, name, parameters, body = declaration
            self.prototype(specifiers, name, parameters)
            self.bodies.append((name, parameters, body))
        elif declaration[0] == 'declaration':
            _, place, specifiers, items = declaration
            self.enumerators(specifiers[3])
            for item in items:
                if item[0] == 'prototype':
                    self.prototype(specifiers, item[2], item[3])
                else:
                    self.static(specifiers[2], item)

    def prototype(self, specifiers, name, parameters):
        self.enumerators(specifiers[3])
        self.results[name] = specifiers[2], [(one[1][2], one[3]) for one in parameters]

    def static(self, kind, item):
        """An object with static storage; at file scope it may be declared again."""
        _, place, name, lengths, initialiser = item
        old = self.scopes[-1].get(name)
        shape = self.shape(lengths, initialiser)
        if old and (not lengths or lengths[0] is None) and initialiser is None:
            return
        cell = old[3] if old else []
        self.scopes[-1][name] = ('static', kind, shape, cell)
        count = self.count(shape)
        cell[:] = [None] * count
        if initialiser is None:
            cell[:] = [0] * count
        else:
            self.initialiser(initialiser, kind, shape)(None, (cell, 0))
        self.first[id(cell)] = (cell, list(cell))

    def define(self, name, parameters, body):
        self.scopes.append({})
        self.slots = len(parameters)
        self.objects = [None] * self.slots
        for slot, (place, specifiers, parameter, lengths) in enumerate(parameters):
            inner = [self.constant(one) for one in lengths[1:]]
            self.scopes[-1][parameter] = ('array parameter' if lengths else 'automatic', specifiers[2], [None] + inner if lengths else [], slot)
        kinds = [None if one[3] else one[1][2] for one in parameters]
        self.result = self.results[name][0]
        run = self.block(body[2])
        self.functions[name] = kinds, self.slots, run
        self.scopes.pop()

    def call(self, name, values):
        """The value that a call of a function returns, or None."""
        kinds, slots, run = self.functions[name]
        frame = [([value], 0, ()) if kind else value for kind, value in zip(kinds, values)] + [None] * (slots - len(kinds))
        self.spend(1 + len(kinds))
        try:
            run(frame)
        except Left as left:
            return left.args[1]
        return 0 if name == 'main' else None

    # ---- initialisers

    def initialiser(self, tree, kind, lengths):
        """What gives the elements from (cells, offset) on their first values."""
        if tree[0] == 'string' or (lengths and tree[0] == 'list' and len(tree[2]) == 1 and tree[2][0][0] == 'string' and len(lengths) == 1):
            return self.text(tree, kind, lengths[0])
        if tree[0] != 'list':
            value = self.value(tree)[1]

            def one(frame, where):
                found = value(frame)
                self.tick()
                where[0][where[1]] = convert(kind, found)
            return one
        if not lengths:
            inner = self.initialiser(tree[2][0], kind, lengths)

            def braced(frame, where):
                self.tick()
                inner(frame, where)
            return braced
        return self.listed(tree[2], kind, lengths)

    def text(self, tree, kind, length):
        string = tree if tree[0] == 'string' else tree[2][0]

        def run(frame, where):
            self.spend(1 if tree is string else 2)
            for k in range(length):
                self.tick()
                where[0][where[1] + k] = convert(kind, string[2][k] if k < len(string[2]) else 0)
        return run

    def listed(self, trees, kind, lengths):
        size = self.count(lengths[1:])
        parts = [self.initialiser(one, kind, lengths[1:]) for one in trees]

        def run(frame, where):
            self.tick()
            for k, part in enumerate(parts):
                part(frame, (where[0], where[1] + k * size))
            for k in range(len(parts) * size, lengths[0] * size):
                self.tick()
                where[0][where[1] + k] = 0
        return run

    # ---- statements

    def block(self, items):
        """What a block does; its objects are indeterminate as it is entered."""
        self.scopes.append({})
        first = self.slots
        parts = [part for item in items for part in self.item(item)]
        self.scopes.pop()
        renew = self.renewal(first)

        def run(frame):
            self.tick()
            renew(frame)
            for part in parts:
                part(frame)
        return run

    def renewal(self, first):
        """What makes the objects from this one on indeterminate."""
        objects = self.objects[first:self.slots]

        def renew(frame):
            for k, lengths in enumerate(objects, first):
                frame[k] = ([None] * self.count(lengths), 0, lengths)
        return renew

    def item(self, tree):
        if tree[0] == 'declaration':
            return self.local(tree)
        return [] if tree[0] == 'assertion' else [self.statement(tree)]

    def local(self, tree):
        _, place, specifiers, items = tree
        self.enumerators(specifiers[3])
        found = []
        for item in items:
            if specifiers[0] == 'static':
                self.scopes[-1].pop(item[2], None)
                self.static(specifiers[2], item)
            else:
                found.append(self.declarator(specifiers[2], item))
        return found

    def declarator(self, kind, item):
        _, place, name, lengths, initialiser = item
        shape = self.shape(lengths, initialiser)
        slot = self.slots
        self.slots += 1
        self.objects.append(tuple(shape))
        self.scopes[-1][name] = ('automatic', kind, shape, slot)
        count = self.count(shape)
        start = self.initialiser(initialiser, kind, shape) if initialiser else None

        def run(frame):
            self.tick()
            frame[slot] = ([None] * count, 0, tuple(shape))
            if start:
                start(frame, frame[slot])
        return run

    def statement(self, tree):
        return getattr(self, tree[0] + '_statement')(*tree[2:])

    def block_statement(self, items):
        return self.block(items)

    def empty_statement(self):
        return lambda frame: self.tick()

    def expression_statement(self, tree):
        value = self.value(tree, False)[1] if tree else None

        def run(frame):
            self.tick()
            if value:
                value(frame)
        return run

    def if_statement(self, test, then, other):
        test, then, other = self.value(test)[1], self.statement(then), self.statement(other) if other else None

        def run(frame):
            self.tick()
            if test(frame):
                then(frame)
            elif other:
                other(frame)
        return run

    def turns(self, frame, test, body, step):
        while test is None or test(frame):
            try:
                body(frame)
            except Left as left:
                if left.args[0] == 'break':
                    return
                if left.args[0] == 'return':
                    raise
            if step:
                step(frame)

    def while_statement(self, test, body):
        test, body = self.value(test)[1], self.statement(body)

        def run(frame):
            self.tick()
            self.turns(frame, test, body, None)
        return run

    def do_statement(self, body, test):
        body, test = self.statement(body), self.value(test)[1]

        def run(frame):
            self.tick()
            first = [True]

            def again(inner):
                if first[0]:
                    first[0] = False
                    return True
                return test(inner)
            self.turns(frame, again, body, None)
        return run

    def for_statement(self, declaration, start, test, step, body):
        self.scopes.append({})
        first = self.slots
        declared = self.local(declaration) if declaration else []
        renew = self.renewal(first)
        start, step = [self.value(one, False)[1] if one else None for one in (start, step)]
        test = self.value(test)[1] if test else None
        body = self.statement(body)
        self.scopes.pop()

        def run(frame):
            self.tick()
            renew(frame)
            for one in declared:
                one(frame)
            if start:
                start(frame)
            self.turns(frame, test, body, step)
        return run

    def switch_statement(self, test, items):
        kind, value = self.value(test)
        kind = promote(kind)
        self.scopes.append({})
        first = self.slots
        parts, labels = [], []
        for item in items:
            if item[0] in ('case', 'default'):
                labels.append((len(parts), convert(kind, self.constant(item[2])) if item[0] == 'case' else None))
                parts.append(lambda frame: self.tick())
            else:
                parts += self.item(item)
        self.scopes.pop()
        renew = self.renewal(first)

        def run(frame):
            self.tick()
            found = value(frame)
            self.tick()
            renew(frame)
            try:
                for part in parts[self.label(found, labels, len(parts)):]:
                    part(frame)
            except Left as left:
                if left.args[0] != 'break':
                    raise
        return run

    def label(self, value, labels, none):
        """The part that is jumped to."""
        for at, case in labels:
            if case is None:
                none = at
            else:
                self.tick()
                if case == value:
                    return at
        return none

    def break_statement(self):
        return self.leaves('break', None, None)

    def continue_statement(self):
        return self.leaves('continue', None, None)

    def return_statement(self, tree):
        return self.leaves('return', self.value(tree)[1] if tree else None, self.result)

    def leaves(self, how, value, kind):
        def run(frame):
            self.tick()
            raise Left(how, convert(kind, value(frame)) if value else None)
        return run

    # ---- places

    def lookup(self, name):
        for scope in reversed(self.scopes):
            if name in scope:
                return scope[name]
        raise KeyError(name)

    def place(self, tree):
        return getattr(self, tree[0] + '_place')(*tree[1:])

    def name_place(self, place, name):
        storage, kind, lengths, what = self.lookup(name)

        def static(frame):
            self.tick()
            return what, 0, tuple(lengths), False

        def automatic(frame):
            self.tick()
            found = frame[what]
            return found if len(found) == 4 else (*found, False)
        return kind, lengths, static if storage == 'static' else automatic

    @staticmethod
    def count(lengths):
        count = 1
        for one in lengths:
            count *= one or 1
        return count

    def string_place(self, place, text):
        cells = list(text) + [0]

        def run(frame):
            self.tick()
            return cells, 0, (len(cells),), True
        return 'char', [len(cells)], run

    def subscript_place(self, place, array, index):
        kind, lengths, array = self.place(array)
        index = self.value(index)[1]
        size = self.count(lengths[1:])

        def run(frame):
            self.tick()
            cells, offset, all_of_them, literal = array(frame)
            k = index(frame)
            if not 0 <= k < all_of_them[0]:
                raise Undefined(5, place)
            return cells, offset + k * size, all_of_them[1:], literal
        return kind, lengths[1:], run

    def fetch(self, where, place):
        found = where[0][where[1]]
        if found is None:
            raise Undefined(6, place)
        return found

    def store(self, where, value, place):
        if where[3]:
            raise Undefined(7, place)
        where[0][where[1]] = value

    # ---- expressions

    def value(self, tree, used=True):
        """Its type, and what it does; a void one gives None."""
        kind = tree[0]
        if kind == 'name' and self.lookup(tree[2])[0] == 'enumerator':
            return self.known('int', self.lookup(tree[2])[1])
        if kind in ('name', 'subscript'):
            kind, lengths, where = self.place(tree)
            return kind, lambda frame: self.fetch(where(frame), tree[1])
        if kind in ('comma', 'conditional', 'call'):
            return getattr(self, kind + '_value')(used, *tree[1:])
        return getattr(self, kind.replace(' ', '_') + '_value')(*tree[1:])

    def known(self, kind, value):
        def run(frame):
            self.tick()
            return value
        return kind, run

    def constant_value(self, place, kind, value):
        return self.known(kind, value)

    def size(self, tree):
        if tree[0] in ('name', 'subscript', 'string') and not (tree[0] == 'name' and self.lookup(tree[2])[0] == 'enumerator'):
            kind, lengths, _ = self.place(tree)
            return 4 if None in lengths else SIZES[kind] * self.count(lengths)
        return SIZES[self.value(tree)[0]]

    def sizeof_value(self, place, tree):
        return self.known('unsigned', self.size(tree))

    def sizeof_type_value(self, place, named):
        return self.known('unsigned', SIZES[named[0]] * self.count([self.constant(one) for one in named[1]]))

    def cast_value(self, place, kind, tree):
        value = self.value(tree, kind != 'void')[1]

        def run(frame):
            self.tick()
            found = value(frame)
            return None if kind == 'void' else convert(kind, found)
        return kind, run

    def unary_value(self, place, operator, tree):
        kind, value = self.value(tree)
        result = promote(kind)

        def run(frame):
            self.tick()
            found = value(frame)
            if operator == '!':
                return int(found == 0)
            if operator == '-':
                return in_range(result, -found, place)
            return found if operator == '+' else convert(result, ~found)
        return 'int' if operator == '!' else result, run

    def binary_value(self, place, operator, left, right):
        if operator in ('&&', '||'):
            return self.logical(operator, self.value(left)[1], self.value(right)[1])
        (one, left), (other, right) = self.value(left), self.value(right)
        shift = operator in ('<<', '>>')
        kind = promote(one) if shift else usual(one, other)

        def run(frame):
            self.tick()
            a = left(frame)
            b = right(frame)
            return operate(operator, kind, convert(kind, a), b if shift else convert(kind, b), place)
        return 'int' if operator in ('==', '!=', '<', '>', '<=', '>=') else kind, run

    def logical(self, operator, left, right):
        def run(frame):
            self.tick()
            first = left(frame) != 0
            if first == (operator == '||'):
                return int(first)
            return int(right(frame) != 0)
        return 'int', run

    def conditional_value(self, used, place, test, then, other):
        test = self.value(test)[1]
        (one, then), (two, other) = self.value(then, used), self.value(other, used)
        kind = 'void' if one == 'void' else usual(one, two)

        def run(frame):
            self.tick()
            found = then(frame) if test(frame) else other(frame)
            return None if kind == 'void' or found is None else convert(kind, found)
        return kind, run

    def comma_value(self, used, place, left, right):
        left = self.value(left, False)[1]
        kind, right = self.value(right, used)

        def run(frame):
            self.tick()
            left(frame)
            return right(frame)
        return kind, run

    def assign_value(self, place, left, right):
        kind, _, where = self.place(left)
        value = self.value(right)[1]

        def run(frame):
            self.tick()
            found = where(frame)
            result = convert(kind, value(frame))
            self.store(found, result, place)
            return result
        return kind, run

    def compound_value(self, place, operator, left, right):
        kind, _, where = self.place(left)
        other, value = self.value(right)
        shift = operator in ('<<', '>>')
        middle = promote(kind) if shift else usual(kind, other)

        def run(frame):
            self.tick()
            found = where(frame)
            second = value(frame)
            first = self.fetch(found, left[1])
            result = operate(operator, middle, convert(middle, first), second if shift else convert(middle, second), place)
            result = convert(kind, result)
            self.store(found, result, place)
            return result
        return kind, run

    def step_value(self, place, moment, operator, tree):
        kind, _, where = self.place(tree)
        middle = promote(kind)

        def run(frame):
            self.tick()
            found = where(frame)
            old = self.fetch(found, tree[1])
            new = convert(kind, operate(operator, middle, convert(middle, old), 1, place))
            self.store(found, new, place)
            return new if moment == 'before' else old
        return kind, run

    def call_value(self, used, place, name, arguments):
        result, parameters = self.results[name]
        passed = []
        for tree, (kind, lengths) in zip(arguments, parameters):
            passed.append((None, self.place(tree)[2]) if lengths else (kind, self.value(tree)[1]))

        def run(frame):
            self.tick()
            values = [value(frame) if kind is None else convert(kind, value(frame)) for kind, value in passed]
            if name in BUILT_IN:
                return self.built_in(name, values)
            found = self.call(name, values)
            if found is None and used and result != 'void':
                raise Undefined(8, place)
            return found
        return result, run

    def built_in(self, name, values):
        if name == 'rv_exit':
            raise Ended(values[0] & 255)
        if name == 'rv_putbyte':
            self.output.append(values[0] & 255)
            return None
        if not self.input:
            return -1
        first, self.input = self.input[0], self.input[1:]
        return first


def deep(task):
    """Does it with room for deep recursion, and gives what it gives."""
    found = []
    threading.stack_size(512 << 20)
    sys.setrecursionlimit(1000000)
    thread = threading.Thread(target=lambda: found.append(task()))
    thread.start()
    thread.join()
    return found[0]


def main():
    ticks = int(sys.argv[2]) if len(sys.argv) > 2 else 1000000000
    data = sys.stdin.buffer.read()
    with open(sys.argv[1], encoding='latin-1') as file:
        source = file.read()
    ending, output, spent = deep(lambda: Machine(source, sys.argv[1]).run(ticks, data))
    sys.stdout.buffer.write(output)
    print(*ending, 'after', spent, file=sys.stderr)


if __name__ == '__main__':
    main()
