#!/usr/bin/env python3
"""Writes random three-address programs, with what they come to by the interpreter beside it: `generate.py COUNT SEED`.

Programs that get stuck are left out: nothing is promised of them.
"""
import random
import sys

from interpreter import COMPARISONS, FULL, OPERATIONS, SIZES, SIGNED, Function, Program, Run, Stuck, converted, elements, ending

CONSTANTS = [0, 1, 2, 3, 7, 31, 32, 127, 128, 255, 256, 2047, 2048, 4095, 4096, 32767, 32768, 65535, 65536, 2 ** 31 - 1, 2 ** 31, 2 ** 31 + 1, FULL - 1, FULL - 2, FULL - 2048, FULL - 2049]
KINDS = sorted(SIZES)


class Maker:
    """Makes one function. Each of its objects, elements and slots has a value before it is read; so has each temporary in `words` and
    `references`, of which the latter says what kind of array or row is referred to: its elements, and the lengths."""

    def __init__(self, chance, program, number, shapes):
        self.chance, self.program, self.number, self.shapes = chance, program, number, shapes
        self.shape = shapes[number]
        most = max([len(shape) for shape in shapes[number + 1:]] + [3])
        self.function = Function(most + chance.choice([0, 0, 1, 6, 9]), chance.choice([0, 1, 2, 5]), ''.join('n' if lengths is None else 'a' for kind, lengths in self.shape))
        self.code = self.function.code
        self.words, self.references, self.kept = set(), {}, set()
        self.scalars, self.arrays, self.array_parameters, self.locked = {}, {}, {}, set()

    def objects(self):
        chance, objects = self.chance, self.function.objects
        for kind, lengths in self.shape:
            if lengths is None:
                self.scalars[len(objects)] = kind
                objects.append((kind, []))
            else:
                self.array_parameters[len(self.array_parameters)] = (kind, lengths)
        wanted = {(kind, tuple(lengths)) for shape in self.shapes[self.number + 1:] for kind, lengths in shape if lengths}
        for kind, lengths in sorted(wanted):
            self.arrays[len(objects)] = (kind, list(lengths))
            objects.append((kind, list(lengths)))
        for _ in range(chance.choice([1, 2, 3, 6, 14, 20])):
            kind = chance.choice(KINDS + ['int', 'int', 'uint', 'uint'])
            if chance.random() < 0.1:
                lengths = chance.choice([[1], [2], [3], [5], [2, 2], [2, 3], [1, 2, 2]])
                self.arrays[len(objects)] = (kind, lengths)
                objects.append((kind, lengths))
            else:
                self.scalars[len(objects)] = kind
                objects.append((kind, []))
        if chance.random() < 0.1:
            objects.append((chance.choice(KINDS), [chance.choice([500, 3000])]))

    def begin(self):
        """Every object gets its first value."""
        for number, kind in self.scalars.items():
            if number >= self.function.parameters.count('n'):
                self.code.append('convert %s o%d %s' % (kind, number, self.constant()))
        for number, (kind, lengths) in self.arrays.items():
            by_number = self.chance.random() < 0.5
            for k in range(elements(lengths)):
                if not by_number:
                    self.reach('a%d' % number, kind, lengths, k, 't0')
                place = 'e%d.%d' % (number, k) if by_number else '@t0'
                self.code.append('store %s %d %s' % (kind, converted(kind, self.chance.randrange(FULL)), place))

    def reach(self, place, kind, lengths, k, into):
        """Has `into` refer to element k of the array at a place, by row after row."""
        self.code.append('address %s %s' % (into, place))
        for depth in range(len(lengths)):
            inner = elements(lengths[depth + 1:])
            self.code.append('part %s %s %d %d' % (into, into, k // inner, SIZES[kind] * inner))
            k %= inner

    # ---- what there is

    def constant(self):
        value = self.chance.choice([self.chance.choice(CONSTANTS), self.chance.randrange(FULL), self.chance.randrange(64)])
        return str(value if self.chance.random() < 0.7 or value < 2 ** 31 else value - FULL)

    def operand(self):
        kinds = ['constant'] + ['object'] * 2 * bool(self.scalars) + ['temporary'] * 2 * bool(self.words) + ['kept'] * bool(self.kept)
        kind = self.chance.choice(kinds)
        if kind == 'constant':
            return self.constant()
        if kind == 'object':
            return 'o%d' % self.chance.choice(sorted(self.scalars))
        return self.chance.choice(sorted(self.words if kind == 'temporary' else self.kept))

    def target(self, kinds=None):
        """Where a word goes that is a value of each of these types; where there are none, of any."""
        fits = [n for n, kind in self.scalars.items() if n not in self.locked and (kind in (kinds or ()) or SIZES[kind] == 4)]
        choice = self.chance.choice(['temporary', 'temporary', 'kept', 'object', 'object'])
        if choice == 'object' and fits:
            return 'o%d' % self.chance.choice(fits)
        if choice == 'kept' and self.function.kept:
            return 'k%d' % self.chance.randrange(self.function.kept)
        return 't%d' % self.chance.randrange(self.function.temporaries)

    def emit(self, line, target):
        self.code.append(line)
        self.forget(target)
        if target[0] == 't':
            self.words.add(target)
        elif target[0] == 'k':
            self.kept.add(target)

    def forget(self, target):
        self.words.discard(target)
        self.kept.discard(target)
        self.references.pop(target, None)

    def lose(self, left=()):
        self.words = set(left)
        self.references = {place: shape for place, shape in self.references.items() if place[0] == 'k'}

    def arrays_there(self):
        """Each array that can be named: its place, elements, lengths, and whether it may be written."""
        found = [('a%d' % n, kind, lengths, True) for n, (kind, lengths) in self.arrays.items()]
        found += [('@p%d' % n, kind, lengths, True) for n, (kind, lengths) in self.array_parameters.items()]
        found += [('s%d' % n, kind, lengths, True) for n, (kind, lengths, values, defined) in enumerate(self.program.statics) if defined]
        found += [('l%d' % n, 'char', [len(text)], False) for n, text in enumerate(self.program.literals)]
        found += [('@' + place, kind, lengths, True) for place, (kind, lengths) in self.references.items()]
        return found

    # ---- statements

    def block(self, count, depth):
        for _ in range(count):
            kind = self.chance.choice(['compute'] * 6 + ['convert'] * 2 + ['move', 'nothing', 'put', 'get', 'renew', 'keep', 'fill'] + ['load', 'store'] * 3 + ['branch', 'loop', 'call', 'call', 'call'] * (depth > 0))
            getattr(self, kind)(*([depth] if kind in ('branch', 'loop', 'call') else []))

    def compute(self):
        name, reading = self.chance.choice(OPERATIONS), self.chance.choice(['signed', 'unsigned', 'unsigned'])
        left, right = self.operand(), self.operand()
        if name.startswith('shift'):
            right = str(self.chance.randrange(32))
        if name in ('divide', 'remainder') and self.chance.random() < 0.9:
            right = str(self.chance.choice([1, 2, 3, 7, 10, 255, 2 ** 31, FULL - 3]))
        if reading == 'signed' and name in ('multiply', 'add', 'subtract', 'shift_left'):
            self.emit('convert %s t0 %s' % ('uchar' if name == 'shift_left' else 'short', left), 't0')
            self.emit('convert short t1 %s' % right, 't1')
            left, right = 't0', str(self.chance.randrange(20)) if name == 'shift_left' else 't1'
        target = self.target()
        self.emit('%s %s %s %s %s' % (name, reading, target, left, right), target)

    def convert(self):
        kind, source = self.chance.choice(KINDS), self.operand()
        target = self.target((kind,))
        self.emit('convert %s %s %s' % (kind, target, source), target)

    def move(self):
        source, target = self.operand(), self.target()
        self.emit('move %s %s' % (target, source), target)

    def keep(self):
        """A slot for a reference to an array, or to a row of it."""
        fits = [found for found in self.arrays_there() if found[2] and found[3]]
        if self.function.kept and fits:
            place, kind, lengths, written = self.chance.choice(fits)
            target = 'k%d' % self.chance.randrange(self.function.kept)
            self.code.append('address %s %s' % (target, place))
            if len(lengths) > 1 and self.chance.random() < 0.5:
                row = self.chance.randrange(lengths[0])
                lengths = lengths[1:]
                self.code.append('part %s %s %d %d' % (target, target, row, SIZES[kind] * elements(lengths)))
            self.forget(target)
            self.references[target] = (kind, lengths)

    def nothing(self):
        self.code.append('nothing')

    def put(self):
        self.emit('move t0 %s' % self.operand(), 't0')
        self.code.append('put')
        self.lose()

    def get(self):
        self.code.append('get')
        self.lose(['t0'])

    def renew(self):
        """An object becomes indeterminate, and gets a new value."""
        free = [n for n in self.scalars if n not in self.locked and n >= self.function.parameters.count('n')]
        if free:
            number = self.chance.choice(free)
            self.code.append('forget %d 1' % number)
            self.lose()
            self.code.append('convert %s o%d %s' % (self.scalars[number], number, self.constant()))

    def element(self):
        """A reference to an element of some array, in temporary 2: by constants, or by an index that is computed; or one that is named."""
        place, kind, lengths, written = self.chance.choice(self.arrays_there() or [(None,) * 4])
        if not place:
            return None
        if not lengths:
            return place, kind, written
        if place[0] == 'a' and self.chance.random() < 0.3:
            return 'e%s.%d' % (place[1:], self.chance.randrange(elements(lengths))), kind, written
        if self.chance.random() < 0.3:
            self.count(place, kind, lengths)
        elif len(lengths) == 1 and self.chance.random() < 0.5:
            self.code.append('remainder unsigned t1 %s %d' % (self.operand(), lengths[0]))
            self.code.append('address t2 %s' % place)
            self.code.append('part t2 t2 t1 %d' % SIZES[kind])
        else:
            self.reach(place, kind, lengths, self.chance.randrange(elements(lengths)), 't2')
        self.forget('t1')
        self.forget('t2')
        return '@t2', kind, written

    def count(self, place, kind, lengths):
        """Has temporary 2 refer to an element of an array or row, counted from its first one, or from another one."""
        most, first = elements(lengths), 0
        if place[0] == 'a' and self.chance.random() < 0.3:
            first = self.chance.randrange(most)
            place = 'e%s.%d %s' % (place[1:], first, kind)
        self.code.append('remainder unsigned t1 %s %d' % (self.operand(), most - first))
        self.code.append('address t2 %s' % place)
        self.code.append('element %s t2 t2 %s' % (kind, self.chance.choice(['t1', str(self.chance.randrange(most - first))])))

    def fill(self):
        """A loop that writes elements of an array or row, from one on to the end."""
        fits = [found for found in self.arrays_there() if found[2] and found[3]]
        if fits:
            place, kind, lengths, written = self.chance.choice(fits)
            most = elements(lengths)
            self.code.append('move t0 %d' % self.chance.randrange(most))
            self.code.append('address t1 %s' % place)
            top = len(self.code)
            self.code.append('element %s t2 t1 t0' % kind)
            self.code.append('store %s %d @t2' % (kind, converted(kind, self.chance.randrange(FULL))))
            self.code.append('add unsigned t0 t0 1')
            self.code.append('branch less unsigned t0 %d %d' % (most, top))
            for name in ('t0', 't1', 't2'):
                self.forget(name)

    def load(self):
        found = self.element()
        if found:
            target = self.target((found[1],))
            self.emit('load %s %s %s' % (found[1], target, found[0]), target)

    def store(self):
        found = self.element()
        if found and found[2]:
            source = self.operand()
            if found[1] == 'bool':
                self.emit('convert bool t1 %s' % source, 't1')
                source = 't1'
            self.code.append('store %s %s %s' % (found[1], source, found[0]))

    def branch(self, depth):
        at = len(self.code)
        left, right = self.operand(), self.operand()
        self.code.append('')
        words, kept, references = set(self.words), set(self.kept), dict(self.references)
        self.block(self.chance.randint(1, 4), depth - 1)
        self.meet(words, kept, references)
        self.code[at] = 'branch %s %s %s %s %d' % (self.chance.choice(COMPARISONS), self.chance.choice(['signed', 'unsigned']), left, right, len(self.code))

    def meet(self, words, kept, references):
        self.words &= words
        self.kept &= kept
        self.references = {place: shape for place, shape in self.references.items() if references.get(place) == shape}

    def loop(self, depth):
        free = [n for n, kind in self.scalars.items() if n not in self.locked and kind != 'bool']
        if not free:
            return
        counter = self.chance.choice(free)
        kind = self.scalars[counter]
        reading = 'signed' if kind in SIGNED else 'unsigned'
        self.code.append('move o%d %d' % (counter, self.chance.randint(1, 6)))
        self.locked.add(counter)
        self.lose()
        self.kept, self.references = set(), {}
        start = len(self.code)
        self.block(self.chance.randint(1, 4), depth - 1)
        self.code.append('subtract %s o%d o%d 1' % (reading, counter, counter))
        self.code.append('branch not_equal %s o%d 0 %d' % (reading, counter, start))
        self.locked.discard(counter)

    def call(self, depth):
        if self.number + 1 >= len(self.shapes):
            return
        callee = self.chance.randrange(self.number + 1, len(self.shapes))
        arguments = []
        for kind, lengths in self.shapes[callee]:
            fits = [place for place, k, l, written in self.arrays_there() if written and (k, l) == (kind, lengths) and not place.startswith('@t')]
            if lengths is not None and not fits:
                return
            arguments.append((kind, self.chance.choice(fits) if fits and lengths is not None else None))
        self.lose()
        for k, (kind, place) in enumerate(arguments):
            if place:
                self.code.append('address t%d %s' % (k, place))
                self.forget('t%d' % k)
            else:
                self.words = {word for word in self.words if int(word[1:]) < k}
                self.emit('convert %s t%d %s' % (kind, k, self.operand()), 't%d' % k)
        self.code.append('call %d' % callee)
        self.lose(['t0'])

    def make(self):
        self.objects()
        self.begin()
        self.block(self.chance.randint(8, 20), 2)
        self.code.append('move t0 %s' % self.operand())
        self.code.append('exit' if self.number == 0 and self.chance.random() < 0.1 else 'return')
        return self.function


def make(chance, name):
    program = Program(name)
    program.data = bytes(chance.randrange(256) for _ in range(chance.choice([0, 1, 3, 8])))
    program.literals = [bytes(chance.randrange(1, 256) for _ in range(chance.choice([0, 1, 3, 6]))) + b'\0' for _ in range(chance.randint(0, 2))]
    for _ in range(chance.randint(0, 4)):
        kind = chance.choice(KINDS)
        lengths = chance.choice([[], [], [1], [3], [5], [2, 2], [2, 3], [700 if chance.random() < 0.2 else 4]])
        values = [converted(kind, chance.randrange(FULL)) for _ in range(chance.randint(0, min(6, elements(lengths))))]
        program.statics.append((kind, lengths, values, chance.random() < 0.9))
    shape = lambda: (chance.choice(KINDS), None) if chance.random() < 0.7 else (chance.choice(['uchar', 'short', 'int']), chance.choice([[2], [2, 2]]))
    shapes = [[]] + [[shape() for _ in range(chance.choice([0, 1, 2, 3, 8, 9, 10, 12]))] for _ in range(chance.randint(0, 3))]
    for number in range(len(shapes)):
        program.functions.append(Maker(chance, program, number, shapes).make())
    return program


def write(program, spent, ends):
    lines = ['program ' + program.name]
    if program.data:
        lines.append('input ' + program.data.hex())
    lines += ['literal ' + text.hex() for text in program.literals]
    for kind, lengths, values, defined in program.statics:
        words = ['static' if defined else 'declared', kind] + ['%d' % n for n in lengths] + ['='] * bool(values) + ['%d' % v for v in values]
        lines.append(' '.join(words))
    for function in program.functions:
        lines.append('function %d %d %s' % (function.temporaries, function.kept, function.parameters or '-'))
        lines += [' '.join(['object', kind] + ['%d' % n for n in lengths]) for kind, lengths in function.objects]
        lines += function.code
    lines.append('costs %d' % spent)
    lines.append(' '.join(['ends'] + ends))
    print('\n'.join(lines))


def main():
    count, seed = int(sys.argv[1]), int(sys.argv[2])
    chance = random.Random(seed)
    print('# Written by tests/outside/tac/generate.py %d %d, with what each program comes to by the interpreter there.' % (count, seed))
    made = stuck = 0
    while made < count:
        program = make(chance, 'random_%d' % (made + 1))
        run = Run(program)
        try:
            status = run.run(20000)
        except Stuck:
            stuck += 1
            continue
        if len(run.trace) > 60:
            continue
        made += 1
        write(program, run.spent, ending(run, status))
    print('%d programs that got stuck or ran on were left out' % stuck, file=sys.stderr)


main()
