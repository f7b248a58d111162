#!/usr/bin/env python3
"""The rows of three-address programs of crates/test_code, from programs.txt and random.txt; `../rows.py` writes them.

A program's lines `costs N` and `ends STATUS LEFT EVENTS` are what it comes to, `frame N` the most bytes of its main's frame. What a
program's costs allow the machine is that and 6 for what comes before main and behind it.
"""
import os
import sys

HERE = os.path.dirname(os.path.abspath(__file__))
sys.path[:0] = [os.path.dirname(os.path.dirname(HERE)), HERE]
import harness

AROUND = 4 + 2
# what the crate takes for the names of instructions and types: letters, and the places in these lists
LETTERS = {'nothing': 'n', 'put': 'p', 'get': 'g', 'exit': 'x', 'return': 'r', 'jump': 'j', 'call': 'c', 'forget': 'k', 'branch': 'b', 'load': 'l', 'store': 's',
           'address': 'a', 'element': 'e', 'part': 't', 'move': 'm', 'convert': 'v'}
TYPES = {'bool': 'b', 'char': 'c', 'schar': 'a', 'uchar': 'h', 'short': 's', 'ushort': 't', 'int': 'i', 'uint': 'j', 'long': 'l', 'ulong': 'm'}
READINGS = {'signed': 's', 'unsigned': 'u'}
COMPARISONS = ['equal', 'not_equal', 'less', 'greater_equal']
OPERATIONS = ['multiply', 'divide', 'remainder', 'add', 'subtract', 'shift_left', 'shift_right', 'and', 'exclusive_or', 'or', 'less', 'equal', 'not_equal']


def encoded(words):
    """An instruction as the crate takes it."""
    name, *rest = words
    if name in OPERATIONS:
        return ' '.join(['o', str(OPERATIONS.index(name)), READINGS[rest[0]], *rest[1:]])
    if name == 'branch':
        rest[:2] = [str(COMPARISONS.index(rest[0])), READINGS[rest[1]]]
    elif name in ('load', 'store', 'element', 'convert'):
        rest[0] = TYPES[rest[0]]
    elif name == 'address' and len(rest) > 2:
        rest[2] = TYPES[rest[2]]
    return ' '.join([LETTERS[name], *rest])


class Row:
    """A program: its lines, what it is run on, within which bounds, and what it comes to."""

    def __init__(self, name):
        self.name, self.lines, self.data, self.main, self.costs, self.frame, self.count = name, [], b'', 0, 0, 0, 0
        self.status, self.trace, self.said = None, [], ''

    def take(self, line):
        words = line.split()
        if words[0] == 'input':
            self.data = bytes.fromhex(words[1])
        elif words[0] in ('main', 'frame'):
            setattr(self, words[0], int(words[1]))
        elif words[0] == 'costs':
            self.costs = int(words[1]) + AROUND
        elif words[0] == 'ends':
            self.status, self.trace, self.said = int(words[1]), words[3:], ' '.join(words)
        elif words[0] != 'program':
            self.take_part(words)

    def take_part(self, words):
        """A line of the program."""
        if words[0] == 'literal':
            self.lines.append('L ' + words[1])
        elif words[0] in ('static', 'declared', 'object'):
            letter = {'static': 'S', 'declared': 'D', 'object': 'O'}[words[0]]
            self.lines.append(' '.join([letter, TYPES[words[1]], *words[2:]]))
        elif words[0] == 'function':
            self.count = 0
            self.lines.append(' '.join(['f', *words[1:3], words[3].replace('-', '')]))
        else:
            if words[0].endswith(':'):
                assert int(words[0][:-1]) == self.count, words
                words = words[1:]
            times = int(words.pop(0)[:-1]) if words[0].endswith('*') else 1
            self.count += times
            self.lines.append((f'* {times} ' if times > 1 else '') + encoded(words))


def read(lines):
    row = None
    for line in lines:
        words = line.split()
        if not words or words[0] == '#':
            continue
        if words[0] == 'program':
            row = Row(words[1])
        row.take(line.rstrip('\n'))
        if words[0] == 'ends':
            yield row


def of_file(path):
    with open(path, encoding='ascii') as file:
        return list(read(file))


def given(subject, row):
    """A row of the crate for a program."""
    return harness.row_of(subject, row.name, row.data, row.costs, row.frame, row.main, *row.lines)


def said(row):
    return row.said


def tac(name):
    def rows():
        for row in of_file(os.path.join(HERE, name)):
            yield given('tac', row), f'{row.name}: {said(row)}'
    rows.__name__ = name
    return rows


# so many rows there are of each
KINDS = [(tac('programs.txt'), 89), (tac('random.txt'), 60)]
