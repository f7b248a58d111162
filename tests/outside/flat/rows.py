#!/usr/bin/env python3
"""The rows of flat programs of crates/test_code, from programs.txt and random.txt; `../rows.py` writes them. As a script it reads programs and
writes a row of each: `python3 rows.py SUBJECT [TIMES] <PROGRAMS`, where the subject is `flat_took`, or `flat_times` with a number of times.

A program's line `ends STATUS EVENTS` is what it comes to. Its costs, the most instructions of the machine that the table of
`frames_code` has for the steps that it takes, are counted by the interpreter of generate.py, which has to end with the same.
"""
import os
import sys

HERE = os.path.dirname(os.path.abspath(__file__))
sys.path[:0] = [os.path.dirname(os.path.dirname(HERE)), HERE]
import harness

import generate

# what the crate takes for the names of instructions: letters, and the places in these lists
LETTERS = {'nothing': 'n', 'put': 'p', 'get': 'g', 'exit': 'x', 'return': 'r', 'jump': 'j', 'call': 'c', 'branch': 'b', 'load': 'l', 'store': 's', 'address': 'a',
           'element': 'e', 'move': 'm'}
WIDTHS = ['byte', 'signed_byte', 'half', 'signed_half', 'word']
TESTS = ['equal', 'not_equal', 'less', 'greater_equal', 'less_unsigned', 'greater_equal_unsigned']
CONVERSIONS = ['to_byte', 'to_signed_byte', 'to_half', 'to_signed_half', 'to_truth']
OPERATIONS = ['equal', 'not_equal', 'add', 'sub', 'shift_left', 'less', 'less_unsigned', 'xor', 'shift_right', 'shift_right_arithmetic', 'or', 'and', 'mul', 'mul_high',
              'mul_high_signed_unsigned', 'mul_high_unsigned', 'div', 'div_unsigned', 'rem', 'rem_unsigned']
# the most instructions of a program whose costs are not told
ENOUGH = 100000000
# frames_code/specs/Costs: the most instructions of each; a call's beginning; the program's beginning, with the entry of main, and its end
ENTRY = 42
AROUND = 4 + ENTRY + 2
COSTS = {'nothing': 0, 'move': 6, 'load': 7, 'store': 7, 'address': 6, 'element': 13, 'jump': 1, 'branch': 8, 'call': 2 + ENTRY, 'put': 10, 'get': 12,
         'exit': 2, 'return': 43, **{name: 8 for name in generate.CONVERSIONS}, **{name: 11 for name in generate.OPERATIONS}}
MOST = 1000000


def encoded(words):
    """An instruction as the crate takes it."""
    name, *rest = words
    if name in CONVERSIONS:
        return ' '.join(['v', str(CONVERSIONS.index(name)), *rest])
    if name in OPERATIONS:
        return ' '.join(['o', str(OPERATIONS.index(name)), *rest])
    places = {'branch': TESTS, 'load': WIDTHS, 'store': WIDTHS}
    if name in places:
        rest[0] = str(places[name].index(rest[0]))
    return ' '.join([LETTERS[name], *rest])


class Row:
    """A program: its lines, what it is run on, and what it comes to."""

    def __init__(self, name):
        self.name, self.lines, self.functions = name, [], []
        self.data, self.statics, self.main, self.status, self.trace = b'', b'', 0, None, []

    def take(self, line):
        words = line.split()
        if words[0] == 'input':
            self.data = bytes.fromhex(words[1])
        elif words[0] == 'main':
            self.main = int(words[1])
        elif words[0] == 'statics':
            for word in words[1:]:
                text, _, times = word.partition('*')
                self.statics += bytes.fromhex(text) * int(times or 1)
                self.lines.append(f'd {text} {times or 1}')
        elif words[0] == 'function':
            self.functions.append(generate.Function(*[int(word) for word in words[1:]]))
            self.lines.append(' '.join(['f', *words[1:]]))
        else:
            if words[0].endswith(':'):
                assert int(words[0][:-1]) == len(self.functions[-1].code), line
                words = words[1:]
            times = int(words.pop(0)[:-1]) if words[0].endswith('*') else 1
            self.functions[-1].code += [' '.join(words)] * times
            self.lines.append((f'* {times} ' if times > 1 else '') + encoded(words))

    def end(self, words):
        self.status, self.trace = int(words[0]), joined(words[1:])


class Run(generate.Run):
    spent = AROUND

    def step(self):
        frame = self.frames[-1]
        if frame.at < len(frame.function.code):
            self.spent += COSTS[frame.function.code[frame.at].split()[0]]
        return super().step()


def joined(trace):
    """Events, bytes of one kind that follow one another in one word."""
    words = []
    for event in trace:
        kind, _, data = event.partition(':')
        if words and data and words[-1].startswith(kind + ':'):
            words[-1] += data
        else:
            words.append(event)
    return words


def read(lines):
    row = None
    for line in lines:
        words = line.split()
        if not words or words[0] == '#':
            continue
        if words[0] == 'program':
            row = Row(words[1])
        elif words[0] == 'ends':
            row.end(words[1:])
            yield row
        else:
            row.take(line.rstrip('\n'))


def of_file(path):
    with open(path, encoding='ascii') as file:
        return list(read(file))


def ends(status, trace):
    return ' '.join(['ends', str(status), *trace])


def row_of(subject, row, costs):
    """A row of the crate for a program."""
    return harness.row_of(subject, row.name, row.data, costs, 0, row.main, *row.lines)


def costs_of(row):
    """The most instructions that it may take, by the interpreter, which has to end as the row says."""
    run = Run(row.functions, row.statics, row.main, row.data)
    try:
        found = ends(run.run(MOST), joined(run.trace))
    except generate.Stuck:
        found = 'stuck'
    wanted = ends(row.status, row.trace)
    if found != wanted:
        raise AssertionError(f'{row.name}: {found} by generate.py, not {wanted}')
    return run.spent


def given(subject, row):
    return row_of(subject, row, costs_of(row))


def said(row):
    return ends(row.status, row.trace)


def flat(name):
    def rows():
        for row in of_file(os.path.join(HERE, name)):
            yield given('flat', row), f'{row.name}: {said(row)}'
    rows.__name__ = name
    return rows


# so many rows there are of each
KINDS = [(flat('programs.txt'), 72), (flat('random.txt'), 100)]


def main():
    subject, *times = sys.argv[1:]
    for row in read(sys.stdin):
        sys.stdout.buffer.write(row_of(subject, row, times[0] if times else ENOUGH) + b'\n')


if __name__ == '__main__':
    main()
