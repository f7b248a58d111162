#!/usr/bin/env python3
"""A plain interpreter of three-address code: `interpreter.py ROWS ..` runs the programs of these files and compares them with what the rows
say they come to.

It is written from tac/specs/Run.antt and tac/specs/Costs.antt, with ISO/IEC 9899:2011 6.5 for what operations are, and has no part of the
compiler. The form of a program is told in README.md.
"""
import os
import sys

sys.path.insert(0, os.path.join(os.path.dirname(os.path.abspath(__file__)), '..', '..'))
from harness import verdict

FULL = 2 ** 32
SIZES = {'bool': 1, 'char': 1, 'schar': 1, 'uchar': 1, 'short': 2, 'ushort': 2, 'int': 4, 'uint': 4, 'long': 4, 'ulong': 4}
SIGNED = {'schar', 'short', 'int', 'long'}
OPERATIONS = ['multiply', 'divide', 'remainder', 'add', 'subtract', 'shift_left', 'shift_right', 'and', 'exclusive_or', 'or', 'less', 'equal', 'not_equal']
COMPARISONS = ['equal', 'not_equal', 'less', 'greater_equal']
COSTS = {'nothing': 0, 'move': 6, 'convert': 8, 'load': 7, 'store': 7, 'address': 6, 'part': 13, 'element': 13, 'forget': 0, 'jump': 1, 'branch': 8, 'put': 10, 'get': 12, 'exit': 2, 'return': 43}
STACK = 2 ** 20


class Stuck(Exception):
    pass


# ---- numbers (6.3.1.2, 6.3.1.3, 6.5.5 to 6.5.12)

def converted(kind, number):
    """The value of the type that a number becomes."""
    if kind == 'bool':
        return int(number != 0)
    bits = 8 * SIZES[kind]
    number %= 2 ** bits
    return number - 2 ** bits if kind in SIGNED and number >> bits - 1 else number


def is_word_of(kind, word):
    return converted(kind, word) % FULL == word


def in_range(kind, number):
    """6.5p5: out of the range of a signed type it is undefined; 6.2.5p9: an unsigned one goes modulo."""
    if kind == 'int' and not -2 ** 31 <= number < 2 ** 31:
        raise Stuck
    return number


def quotient(left, right):
    return abs(left) // abs(right) * (1 if (left < 0) == (right < 0) else -1)


def computed(name, reading, a, b):
    kind = 'int' if reading == 'signed' else 'uint'
    a, b = converted(kind, a), b if name.startswith('shift') else converted(kind, b)
    if name in ('divide', 'remainder'):
        if b == 0:
            raise Stuck
        whole = in_range(kind, quotient(a, b))
        number = whole if name == 'divide' else a - b * whole
    elif name in ('shift_left', 'shift_right'):
        if not 0 <= b < 32 or name == 'shift_left' and a < 0:
            raise Stuck
        number = in_range(kind, a * 2 ** b) if name == 'shift_left' else a // 2 ** b
    elif name in ('and', 'or', 'exclusive_or'):
        number = {'and': a & b, 'or': a | b, 'exclusive_or': a ^ b}[name]
    elif name in ('less', 'equal', 'not_equal'):
        number = int(holds(name, reading, a % FULL, b % FULL))
    else:
        number = in_range(kind, {'multiply': a * b, 'add': a + b, 'subtract': a - b}[name])
    return number % FULL


def holds(name, reading, a, b):
    if name in ('equal', 'not_equal'):
        return (a == b) == (name == 'equal')
    kind = 'int' if reading == 'signed' else 'uint'
    return (converted(kind, a) < converted(kind, b)) == (name == 'less')


# ---- programs

class Function:
    def __init__(self, temporaries, kept, parameters):
        self.temporaries, self.kept, self.parameters = temporaries, kept, parameters
        self.objects, self.code = [], []

    def call_bytes(self):
        objects = sum((SIZES[kind] * elements(lengths) + 3) // 4 * 4 for kind, lengths in self.objects)
        return (4 * max(0, self.temporaries - 8) + 8 + 4 * self.kept + 4 * self.parameters.count('a') + objects + 15) // 16 * 16

    def entry_cost(self):
        return 42 + 6 * len(self.parameters)


class Program:
    def __init__(self, name):
        self.name, self.main, self.data = name, 0, b''
        self.functions, self.literals, self.statics = [], [], []


def elements(lengths):
    count = 1
    for length in lengths:
        count *= length
    return count


# ---- objects: an element is a list of one value, an array a tuple of such

def laid_out(lengths, values):
    if not lengths:
        return [values[0] if values else 0]
    size = elements(lengths[1:])
    return tuple(laid_out(lengths[1:], values[k * size:(k + 1) * size]) for k in range(lengths[0]))


def indeterminate(lengths):
    return tuple(indeterminate(lengths[1:]) for _ in range(lengths[0])) if lengths else [None]


def elements_of(tree):
    return 1 if isinstance(tree, list) else sum(elements_of(part) for part in tree)


def first_of(tree, path):
    """The number of the first element of a part: elements are counted in the order in which they lie (6.5.2.1p3)."""
    if not path:
        return 0
    return sum(elements_of(part) for part in tree[:path[0]]) + first_of(tree[path[0]], path[1:])


def path_of(tree, number):
    """The subscripts of an element."""
    if isinstance(tree, list):
        return () if number == 0 else None
    for index, part in enumerate(tree):
        if number < elements_of(part):
            return (index,) + path_of(part, number)
        number -= elements_of(part)
    return None


class Call:
    def __init__(self, function, base, arrays):
        self.function, self.base, self.arrays, self.at, self.kept = function, base, arrays, 0, {}


class Run:
    """A value is a word, or a reference: an object's number and subscripts."""

    def __init__(self, program):
        self.program, self.data, self.trace = program, list(program.data), []
        self.store = [('char', tuple([c] for c in text)) for text in program.literals]
        self.store += [(kind, laid_out(lengths, values)) for kind, lengths, values, defined in program.statics]
        main = program.functions[program.main]
        self.calls = [Call(main, len(self.store), [])]
        self.temporaries = {}
        self.stack, self.spent, self.steps = main.call_bytes(), main.entry_cost(), 0
        self.create(main.objects)

    def create(self, objects):
        self.store += [(kind, indeterminate(lengths)) for kind, lengths in objects]

    def tree(self, reference):
        number, path = reference
        if number >= len(self.store):
            raise Stuck
        tree = self.store[number][1]
        for index in path:
            if isinstance(tree, list) or index >= len(tree):
                raise Stuck
            tree = tree[index]
        return tree

    def scalar(self, number):
        """The element of an object of the call that is no array."""
        call = self.calls[-1]
        if number >= len(call.function.objects) or call.function.objects[number][1]:
            raise Stuck
        return self.tree((call.base + number, ()))

    def value(self, text):
        kind, rest = text[0], text[1:]
        if kind not in 'tkop':
            return int(text) % FULL
        number = int(rest)
        if kind == 'o':
            value = self.scalar(number)[0]
            if value is None:
                raise Stuck
            return value % FULL
        if kind == 'p':
            return self.calls[-1].arrays[number]
        place = self.temporaries if kind == 't' else self.calls[-1].kept
        if number not in place:
            raise Stuck
        return place[number]

    def word(self, text):
        value = self.value(text)
        if isinstance(value, tuple):
            raise Stuck
        return value

    def reference(self, text):
        value = self.value(text)
        if not isinstance(value, tuple):
            raise Stuck
        return value

    def give(self, text, value):
        kind, number = text[0], int(text[1:])
        if kind == 'o':
            element = self.scalar(number)
            type_of = self.calls[-1].function.objects[number][0]
            if isinstance(value, tuple) or not is_word_of(type_of, value):
                raise Stuck
            element[0] = converted(type_of, value)
        else:
            (self.temporaries if kind == 't' else self.calls[-1].kept)[number] = value

    def place(self, text):
        kind, rest = text[0], text[1:]
        if kind == 'l':
            return int(rest), ()
        if kind == 's':
            return len(self.program.literals) + int(rest), ()
        if kind == 'a':
            call = self.calls[-1]
            if not call.function.objects[int(rest)][1]:
                raise Stuck
            return call.base + int(rest), ()
        if kind == 'e':
            call, (array, index) = self.calls[-1], rest.split('.')
            if not call.function.objects[int(array)][1]:
                raise Stuck
            return self.numbered(call.base + int(array), int(index))
        return self.reference(rest)

    def numbered(self, number, index):
        """A reference to the element of an object with this number."""
        path = path_of(self.store[number][1], index)
        if path is None:
            raise Stuck
        return number, path

    def element(self, kind, text):
        reference = self.place(text)
        if reference[0] >= len(self.store) or self.store[reference[0]][0] != kind:
            raise Stuck
        tree = self.tree(reference)
        if not isinstance(tree, list):
            raise Stuck
        return tree

    def step(self):
        """None, or the status with which the run ends."""
        call = self.calls[-1]
        if call.at >= len(call.function.code):
            raise Stuck
        name, *words = call.function.code[call.at].split()
        self.steps += 1
        self.spent += self.cost(name, words)
        call.at += 1
        return self.act(call, name, words)

    def cost(self, name, words):
        if name == 'call':
            return 2 + self.program.functions[int(words[0])].entry_cost()
        return 11 if name in OPERATIONS else COSTS[name]

    def act(self, call, name, words):
        if name == 'nothing':
            return None
        if name == 'exit':
            return self.word('t0') % 256
        if name == 'return':
            return self.leave()
        if name == 'call':
            self.enter(self.program.functions[int(words[0])])
        elif name == 'put':
            self.trace.append('put:%02x' % (self.word('t0') % 256))
            self.temporaries = {}
        elif name == 'get':
            byte = self.data.pop(0) if self.data else None
            self.trace.append('end' if byte is None else 'got:%02x' % byte)
            self.temporaries = {0: FULL - 1 if byte is None else byte}
        elif name == 'jump':
            call.at = int(words[0])
        elif name == 'branch':
            if holds(words[0], words[1], self.word(words[2]), self.word(words[3])):
                call.at = int(words[4])
        elif name == 'forget':
            for number in range(int(words[0]), int(words[0]) + int(words[1])):
                kind, lengths = call.function.objects[number]
                self.store[call.base + number] = (kind, indeterminate(lengths))
            self.temporaries = {}
        elif name == 'move':
            self.give(words[0], self.value(words[1]))
        elif name == 'convert':
            self.give(words[1], converted(words[0], self.word(words[2])) % FULL)
        elif name == 'load':
            value = self.element(words[0], words[2])[0]
            if value is None:
                raise Stuck
            self.give(words[1], value % FULL)
        elif name == 'store':
            word = self.word(words[1])
            element = self.element(words[0], words[2])
            if self.place(words[2])[0] < len(self.program.literals) or words[0] == 'bool' and word > 1:
                raise Stuck
            element[0] = converted(words[0], word)
        elif name == 'address':
            reference = self.place(words[1])
            if words[1][0] == 'e' and self.store[reference[0]][0] != words[2]:
                raise Stuck
            self.give(words[0], reference)
        elif name == 'part':
            number, path = self.reference(words[1])
            part = number, path + (self.word(words[2]),)
            if number >= len(self.store) or SIZES[self.store[number][0]] * elements_of(self.tree(part)) != int(words[3]):
                raise Stuck
            self.give(words[0], part)
        elif name == 'element':
            number, path = self.reference(words[2])
            if number >= len(self.store) or self.store[number][0] != words[0]:
                raise Stuck
            first = first_of(self.store[number][1], path)
            self.give(words[1], self.numbered(number, first + self.word(words[3])))
        else:
            self.give(words[1], computed(name, words[0], self.word(words[2]), self.word(words[3])))
        return None

    def enter(self, callee):
        numbers, arrays = [], []
        for k, parameter in enumerate(callee.parameters):
            if parameter == 'a':
                arrays.append(self.reference('t%d' % k))
            else:
                word = self.word('t%d' % k)
                kind = callee.objects[len(numbers)][0]
                if not is_word_of(kind, word):
                    raise Stuck
                numbers.append(converted(kind, word))
        self.calls.append(Call(callee, len(self.store), arrays))
        self.create(callee.objects)
        for k, number in enumerate(numbers):
            self.scalar(k)[0] = number
        self.temporaries = {}
        self.stack += callee.call_bytes()
        if self.stack > STACK:
            raise Stuck

    def leave(self):
        if len(self.calls) == 1:
            return self.word('t0') % 256
        call = self.calls.pop()
        self.stack -= call.function.call_bytes()
        del self.store[call.base:]
        result = self.temporaries.get(0)
        self.temporaries = {0: result} if isinstance(result, int) else {}
        return None

    def run(self, most):
        for _ in range(most):
            status = self.step()
            if status is not None:
                return status
        raise Stuck


# ---- rows

def lengths_and_values(words):
    if '=' in words:
        at = words.index('=')
        return [int(word) for word in words[:at]], [int(word) for word in words[at + 1:]]
    return [int(word) for word in words], []


def take(program, words):
    """Takes a line of a program that is no end of it."""
    name = words[0]
    if name == 'input':
        program.data = bytes.fromhex(words[1])
    elif name == 'main':
        program.main = int(words[1])
    elif name == 'literal':
        program.literals.append(bytes.fromhex(words[1]))
    elif name in ('static', 'declared'):
        program.statics.append((words[1], *lengths_and_values(words[2:]), name == 'static'))
    elif name == 'function':
        program.functions.append(Function(int(words[1]), int(words[2]), words[3].replace('-', '')))
    elif name == 'object':
        program.functions[-1].objects.append((words[1], [int(word) for word in words[2:]]))
    else:
        if name[-1] == ':':
            assert int(name[:-1]) == len(program.functions[-1].code), words
            words = words[1:]
        times = 1
        if words[0][-1] == '*':
            times, words = int(words[0][:-1]), words[1:]
        program.functions[-1].code += [' '.join(words)] * times


def rows(path):
    """Each program, the most instructions that its row allows, the most bytes of its main's frame, and what it ends with."""
    costs = frame = None
    for line in open(path):
        words = line.split()
        if not words or words[0] == '#':
            continue
        if words[0] == 'program':
            program, costs, frame = Program(words[1]), None, None
        elif words[0] == 'costs':
            costs = int(words[1])
        elif words[0] == 'frame':
            frame = int(words[1])
        elif words[0] == 'ends':
            yield program, costs, frame, words[1:]
        else:
            take(program, words)


def ending(run, status):
    """What `ends` says of it: the status, how many bytes of the input are left, what was got and put."""
    return ['%d' % status, '%d' % len(run.data)] + joined(run.trace)


def joined(trace):
    words = []
    for event in trace:
        kind = event.split(':')[0]
        if words and event != 'end' and words[-1].split(':')[0] == kind:
            words[-1] += event.split(':')[1]
        else:
            words.append(event)
    return words


def main():
    passed = failed = 0
    for path in sys.argv[1:]:
        for program, costs, frame, said in rows(path):
            run = Run(program)
            try:
                found, spent = ending(run, run.run(1000000)), run.spent
            except Stuck:
                found, spent = ['stuck'], run.spent
            if found == said and costs == spent:
                passed += 1
            else:
                failed += 1
                print('FAIL %s: %s at costs of %s, not %s of %s' % (program.name, ' '.join(found), spent, ' '.join(said), costs))
    print(verdict.line(passed, failed))


if __name__ == '__main__':
    main()
