#!/usr/bin/env python3
"""Writes random flat programs, with what they come to by the interpreter here: `generate.py COUNT SEED`.

The interpreter is written from frames/specs/Run.antt and the unprivileged ISA manual, and has no part of the compiler. Programs that get
stuck are left out.
"""
import random
import re
import sys

FULL = 2 ** 32
OPERATIONS = ['add', 'sub', 'shift_left', 'less', 'less_unsigned', 'xor', 'shift_right', 'shift_right_arithmetic', 'or', 'and', 'mul',
              'mul_high', 'mul_high_signed_unsigned', 'mul_high_unsigned', 'div', 'div_unsigned', 'rem', 'rem_unsigned', 'equal', 'not_equal']
TESTS = ['equal', 'not_equal', 'less', 'greater_equal', 'less_unsigned', 'greater_equal_unsigned']
CONVERSIONS = ['to_byte', 'to_signed_byte', 'to_half', 'to_signed_half', 'to_truth']
SIZES = {'byte': 1, 'signed_byte': 1, 'half': 2, 'signed_half': 2, 'word': 4}
CONSTANTS = [0, 1, 2, 3, 7, 31, 32, 255, 256, 2047, 2048, 4095, 4096, 65535, 65536, 2 ** 31 - 1, 2 ** 31, 2 ** 31 + 1, FULL - 1, FULL - 2, FULL - 2048, FULL - 2049]


# ---- what a program does

class Stuck(Exception):
    pass


def signed(word, bits=32):
    word %= 2 ** bits
    return word - 2 ** bits if word >> bits - 1 else word


def quotient(left, right):
    return abs(left) // abs(right) * (1 if (left < 0) == (right < 0) else -1)


def compute(name, a, b):
    if name in ('equal', 'not_equal', 'less', 'less_unsigned'):
        return int(compare(name, a, b))
    shift = b % 32
    value = {
        'add': lambda: a + b,
        'sub': lambda: a - b,
        'shift_left': lambda: a << shift,
        'xor': lambda: a ^ b,
        'shift_right': lambda: a >> shift,
        'shift_right_arithmetic': lambda: signed(a) >> shift,
        'or': lambda: a | b,
        'and': lambda: a & b,
        'mul': lambda: a * b,
        'mul_high': lambda: signed(a) * signed(b) >> 32,
        'mul_high_signed_unsigned': lambda: signed(a) * b >> 32,
        'mul_high_unsigned': lambda: a * b >> 32,
        'div': lambda: quotient(signed(a), signed(b)) if b else -1,
        'div_unsigned': lambda: a // b if b else -1,
        'rem': lambda: signed(a) - signed(b) * quotient(signed(a), signed(b)) if b else a,
        'rem_unsigned': lambda: a % b if b else a,
    }[name]()
    return value % FULL


def compare(name, a, b):
    return {
        'equal': a == b,
        'not_equal': a != b,
        'less': signed(a) < signed(b),
        'greater_equal': signed(a) >= signed(b),
        'less_unsigned': a < b,
        'greater_equal_unsigned': a >= b,
    }[name]


def convert(name, a):
    if name == 'to_truth':
        return int(a != 0)
    bits = 8 if name.endswith('byte') else 16
    return signed(a, bits) % FULL if 'signed' in name else a % 2 ** bits


class Function:
    def __init__(self, cells, resident, area, outgoing):
        self.cells, self.resident, self.area, self.outgoing = cells, resident, area, outgoing
        self.code = []

    def area_home(self):
        return 4 * self.outgoing + 4 + 4 * self.cells

    def frame_bytes(self):
        return (self.area_home() + self.area + 4 + 15) // 16 * 16


class Frame:
    def __init__(self, function, name):
        self.function, self.name, self.at, self.cells, self.area = function, name, 0, {}, {}


class Run:
    """A value is a word, or a pair: the list's name (0, or how many bytes of the stack lie from the frame's start on) and the offset."""

    def __init__(self, functions, statics, main, data):
        self.functions, self.statics = functions, dict(enumerate(statics))
        self.size = len(statics)
        self.data, self.trace = list(data), []
        self.frames = [Frame(functions[main], functions[main].frame_bytes())]
        self.temporaries, self.arguments = {}, {}

    def value(self, text):
        kind, rest = text[0], text[1:]
        if kind not in 'tca':
            return int(text) % FULL
        place = {'t': self.temporaries, 'c': self.frames[-1].cells, 'a': self.arguments}[kind]
        if int(rest) not in place:
            raise Stuck
        return place[int(rest)]

    def word(self, text):
        value = self.value(text)
        if isinstance(value, tuple):
            raise Stuck
        return value

    def reference(self, text):
        value = self.value(text)
        if not isinstance(value, tuple):
            raise Stuck
        return value

    def set(self, text, value):
        place = self.temporaries if text[0] == 't' else self.frames[-1].cells
        place[int(text[1:])] = value

    def place(self, text):
        if '+' in text:
            base, index, size = re.split('[+*]', text)
            name, offset = self.place(base)
            return name, offset + self.word(index) * int(size)
        if text[0] == 's':
            return 0, int(text[1:])
        if text[0] == 'f':
            frame = self.frames[-1]
            return frame.name, frame.function.area_home() + int(text[1:])
        return self.reference(text[1:])

    def element(self, width, text):
        name, offset = self.place(text)
        size = SIZES[width]
        if name == 0:
            held, first, past = self.statics, 0, self.size
        else:
            found = [frame for frame in self.frames if frame.name == name]
            if not found:
                raise Stuck
            held, first = found[0].area, found[0].function.area_home()
            past = first + found[0].function.area
        if offset % size or offset < first or offset + size > past:
            raise Stuck
        return held, [offset - first + k for k in range(size)]

    def step(self):
        frame = self.frames[-1]
        if frame.at >= len(frame.function.code):
            raise Stuck
        name, *words = frame.function.code[frame.at].split()
        frame.at += 1
        if name == 'nothing':
            return None
        if name == 'move':
            self.set(words[0], self.value(words[1]))
            return None
        status = self.act(frame, name, words)
        if name != 'call':
            self.arguments = {}
        return status

    def act(self, frame, name, words):
        if name == 'exit':
            return self.word('t0') % 256
        if name == 'return':
            if len(self.frames) == 1:
                return self.word('t0') % 256
            self.frames.pop()
            self.temporaries = {k: v for k, v in self.temporaries.items() if k == 0}
        elif name == 'call':
            callee = self.functions[int(words[0])]
            self.frames.append(Frame(callee, frame.name + callee.frame_bytes()))
            if self.frames[-1].name > 2 ** 20:
                raise Stuck
            self.arguments = {k: v for k, v in self.temporaries.items() if k >= 8}
            self.temporaries = {k: v for k, v in self.temporaries.items() if k < 8}
        elif name == 'put':
            self.trace.append('put:%02x' % (self.word('t0') % 256))
            self.temporaries = {}
        elif name == 'get':
            byte = self.data.pop(0) if self.data else None
            self.trace.append('end' if byte is None else 'got:%02x' % byte)
            self.temporaries = {0: FULL - 1 if byte is None else byte}
        elif name == 'jump':
            frame.at = int(words[0])
        elif name == 'branch':
            if compare(words[0], self.word(words[1]), self.word(words[2])):
                frame.at = int(words[3])
        elif name == 'load':
            held, places = self.element(words[0], words[2])
            if any(k not in held for k in places):
                raise Stuck
            value = sum(held[k] << 8 * j for j, k in enumerate(places))
            self.set(words[1], signed(value, 8 * len(places)) % FULL if 'signed' in words[0] else value)
        elif name == 'store':
            value = self.word(words[1])
            held, places = self.element(words[0], words[2])
            for j, k in enumerate(places):
                held[k] = value >> 8 * j & 255
        elif name == 'address':
            self.set(words[0], self.place(words[1]))
        elif name == 'element':
            list_name, offset = self.reference(words[1])
            self.set(words[0], (list_name, offset + self.word(words[2]) * int(words[3])))
        elif name in CONVERSIONS:
            self.set(words[0], convert(name, self.word(words[1])))
        else:
            self.set(words[0], compute(name, self.word(words[1]), self.word(words[2])))
        return None

    def run(self, most):
        for _ in range(most):
            status = self.step()
            if status is not None:
                return status
        raise Stuck


# ---- random programs

class Maker:
    """Makes one function. Words of the frame are words, or references to 16 bytes that are set; all are set at the start."""

    def __init__(self, chance, number, shapes, statics):
        self.chance, self.number, self.shapes, self.statics = chance, number, shapes, statics
        self.words = chance.choice([1, 2, 3, 5, 8, 14, 40, 700 if chance.random() < 0.1 else 6])
        self.references = chance.randint(1, 3)
        self.window = 4 * chance.choice([0, 1, 3, 200, 600, 20000 if chance.random() < 0.1 else 2])
        cells = self.words + self.references
        most = max([8] + [len(shape) for shape in shapes[number + 1:]])
        outgoing = most - 8 + chance.choice([0, 0, 1, 3])
        self.function = Function(cells, chance.randint(0, min(12, cells)), self.window + 16 + chance.choice([0, 1, 5]), outgoing)
        self.code = self.function.code
        self.free = set()
        self.counters = 0
        self.locked = set()

    def cell(self):
        near = self.chance.choice([min(self.words, 3), self.words])
        return 'c%d' % self.chance.randrange(near)

    def reference(self):
        return 'c%d' % (self.words + self.chance.randrange(self.references))

    def constant(self):
        value = self.chance.choice([self.chance.choice(CONSTANTS), self.chance.randrange(FULL), self.chance.randrange(64)])
        return str(value if self.chance.random() < 0.7 or value < 2 ** 31 else value - FULL)

    def temporary(self):
        return 't%d' % self.chance.randrange(8 + self.function.outgoing)

    def operand(self):
        kinds = ['cell', 'constant'] + (['temporary'] * 2 if self.free else [])
        kind = self.chance.choice(kinds)
        if kind == 'temporary':
            return self.chance.choice(sorted(self.free))
        return self.cell() if kind == 'cell' else self.constant()

    def target(self):
        while True:
            target = self.chance.choice([self.cell, self.temporary])()
            if target not in self.locked:
                return target

    def emit(self, line, target=None):
        self.code.append(line)
        if target and target[0] == 't':
            self.free.add(target)

    def make(self):
        for k, is_reference in enumerate(self.shapes[self.number]):
            if k >= 8:
                self.emit('move %s a%d' % (('c%d' % (self.words + k % self.references)) if is_reference else 'c%d' % (k % self.words), k))
        taken = {'c%d' % (self.words + k % self.references) if r else 'c%d' % (k % self.words) for k, r in enumerate(self.shapes[self.number]) if k >= 8}
        for k, is_reference in enumerate(self.shapes[self.number]):
            target = 'c%d' % (self.words + k % self.references) if is_reference else 'c%d' % (k % self.words)
            if k < 8 and target not in taken:
                self.emit('move %s t%d' % (target, k))
                taken.add(target)
        for k in range(self.words):
            if 'c%d' % k not in taken and (k < 40 or k == self.words - 1):
                self.emit('move c%d %s' % (k, self.constant()))
        if self.words > 40:
            self.words = 40
        for k in range(4):
            self.emit('store word %s f%d' % (self.constant(), self.window + 4 * k))
        first = self.function.cells - self.references
        for k in range(first, self.function.cells):
            if 'c%d' % k not in taken:
                self.emit('address c%d %s' % (k, self.chance.choice(['f%d' % self.window, 's%d' % self.statics])))
        self.reference = lambda: 'c%d' % (first + self.chance.randrange(self.references))
        self.free = set()
        self.block(self.chance.randint(3, 12), 2)
        self.emit('move t0 %s' % self.operand())
        self.emit('exit' if self.number == 0 and self.chance.random() < 0.1 else 'return')
        return self.function

    def block(self, count, depth):
        for _ in range(count):
            kind = self.chance.choice(['compute'] * 6 + ['convert', 'move', 'nothing', 'put', 'get', 'load', 'load', 'store', 'store', 'index', 'index', 'copy'] + ['branch', 'loop', 'call', 'call'] * (depth > 0))
            getattr(self, kind)(*([depth] if kind in ('branch', 'loop', 'call') else []))

    def compute(self):
        name = self.chance.choice(OPERATIONS)
        left, right, target = self.operand(), self.operand(), self.target()
        self.emit('%s %s %s %s' % (name, target, left, right), target)

    def convert(self):
        source, target = self.operand(), self.target()
        self.emit('%s %s %s' % (self.chance.choice(CONVERSIONS), target, source), target)

    def move(self):
        source, target = self.operand(), self.target()
        self.emit('move %s %s' % (target, source), target)

    def nothing(self):
        self.emit('nothing')

    def put(self):
        self.emit('move t0 %s' % self.operand())
        self.emit('put')
        self.free = set()

    def get(self):
        self.emit('get')
        self.free = {'t0'}

    def copy(self):
        target = self.reference()
        self.emit('%s %s %s' % (('move', target, self.reference()) if self.chance.random() < 0.5 else ('address', target, 'f%d' % self.window)))

    def where(self, size):
        offset = self.chance.randrange(16 // size) * size
        kind = self.chance.choice(['frame', 'statics', 'at'])
        if kind == 'frame':
            return 'f%d' % (self.window + offset)
        if kind == 'statics':
            return 's%d' % (self.statics + offset)
        target = self.temporary()
        self.emit('element %s %s %d %d' % (target, self.reference(), offset // size, size))
        self.free.discard(target)
        return '@' + target

    def load(self):
        width = self.chance.choice(sorted(SIZES))
        place, target = self.where(SIZES[width]), self.target()
        self.emit('load %s %s %s' % (width, target, place), target)

    def store(self):
        width = self.chance.choice(sorted(SIZES))
        place = self.where(SIZES[width])
        self.emit('store %s %s %s' % (width, self.operand(), place))

    def index(self):
        width = self.chance.choice(sorted(SIZES))
        size = SIZES[width]
        self.emit('and t1 %s %d' % (self.operand(), 16 // size - 1))
        self.emit('element t2 %s t1 %d' % (self.reference(), size))
        self.free -= {'t1', 't2'}
        target = self.target()
        if self.chance.random() < 0.5:
            self.emit('load %s %s @t2' % (width, target), target)
        else:
            self.emit('store %s %s @t2' % (width, self.operand()))

    def branch(self, depth):
        at = len(self.code)
        left, right = self.operand(), self.operand()
        self.emit('')
        before = set(self.free)
        self.block(self.chance.randint(1, 4), depth - 1)
        self.free &= before
        self.code[at] = 'branch %s %s %s %d' % (self.chance.choice(TESTS), left, right, len(self.code))

    def loop(self, depth):
        free = ['c%d' % k for k in range(self.words) if 'c%d' % k not in self.locked]
        if len(free) < 2:
            return
        counter = self.chance.choice(free)
        self.emit('move %s %d' % (counter, self.chance.randint(1, 6)))
        self.locked.add(counter)
        self.free = set()
        start = len(self.code)
        self.block(self.chance.randint(1, 4), depth - 1)
        self.emit('sub %s %s 1' % (counter, counter))
        self.emit('branch not_equal %s 0 %d' % (counter, start))
        self.locked.discard(counter)

    def call(self, depth):
        if self.number + 1 >= len(self.shapes):
            return
        callee = self.chance.randrange(self.number + 1, len(self.shapes))
        self.free = set()
        for k, is_reference in enumerate(self.shapes[callee]):
            self.emit('move t%d %s' % (k, self.reference() if is_reference else self.operand()))
        self.emit('call %d' % callee)
        self.free = {'t0'}


def make(chance):
    count = chance.randint(1, 4)
    shapes = [[]] + [[chance.random() < 0.3 for _ in range(chance.choice([0, 1, 2, 3, 8, 9, 10, 12]))] for _ in range(count - 1)]
    guard = 4 * chance.choice([0, 1, 4, 300, 3000])
    window = bytes(chance.randrange(256) for _ in range(16))
    functions = [Maker(chance, k, shapes, guard).make() for k in range(count)]
    data = bytes(chance.randrange(256) for _ in range(chance.choice([0, 1, 3, 8])))
    return functions, guard, window, data


def write(number, functions, guard, window, data, status, trace):
    lines = ['program random_%d' % number]
    if data:
        lines.append('input ' + data.hex())
    lines.append('statics 00*%d %s' % (guard, window.hex()) if guard else 'statics ' + window.hex())
    for f in functions:
        lines.append('function %d %d %d %d' % (f.cells, f.resident, f.area, f.outgoing))
        lines += f.code
    lines.append(' '.join(['ends %d' % status] + trace))
    print('\n'.join(lines))


def main():
    count, seed = int(sys.argv[1]), int(sys.argv[2])
    chance = random.Random(seed)
    print('# Written by tests/outside/flat/generate.py %d %d, with what each program comes to by the interpreter there.' % (count, seed))
    made = stuck = 0
    while made < count:
        functions, guard, window, data = make(chance)
        run = Run(functions, bytes(guard) + window, 0, data)
        try:
            status = run.run(20000)
        except Stuck:
            stuck += 1
            continue
        if len(run.trace) > 60:
            continue
        made += 1
        write(made, functions, guard, window, data, status, run.trace)
    print('%d programs that got stuck or ran on were left out' % stuck, file=sys.stderr)


if __name__ == "__main__":
    main()
