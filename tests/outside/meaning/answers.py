#!/usr/bin/env python3
"""The rows of crates/test_code that interpret the programs of programs.txt; `../rows.py` writes them."""
import os
import sys

HERE = os.path.dirname(os.path.abspath(__file__))
sys.path[:0] = [os.path.dirname(os.path.dirname(HERE)), HERE]
import harness


def rows():
    """The head of each row, and its program."""
    found = []
    with open(os.path.join(HERE, 'programs.txt'), encoding='ascii') as file:
        for line in file:
            if line.startswith('=== '):
                found.append([[part.strip() for part in line[4:].split('|')], ''])
            elif found:
                found[-1][1] += line
    return found


def numbers(text):
    return '' if text == '-' else ' ' + text


def ending(run):
    """How the run is printed."""
    kind, *parts = run.split(':')
    if kind == 'undefined':
        return f'Undefined({parts[0]}, Pos {{ file: 0, line: {parts[1]} }})'
    return f'Ended({parts[0]})' if kind == 'ended' else 'TicksUsed'


def bytes_in(text):
    return b'' if text == '-' else bytes(int(word) for word in text.split())


def interpreted():
    for (ticks, data, run, output, left, greatest), source in rows():
        yield harness.row_of('interpreted', ticks, bytes_in(data), source), f'{ending(run)}, greatest {greatest}, put{numbers(output)}, left{numbers(left)}'


# so many rows there are
KINDS = [(interpreted, 121)]
