#!/usr/bin/env python3
"""Holds programs against what they come to, four ways: `check.py CC`. The last line counts what passed and failed.

Each is interpreted with just its ticks, built, run by `cc run` with 60 instructions for each tick and 66 more, and run by qemu-riscv32;
its listing has to be that of the file.
"""
import os
import sys

HERE = os.path.dirname(os.path.abspath(__file__))
INTERP = os.path.join(HERE, '..', 'interp')
sys.path[:0] = [os.path.join(HERE, '..', '..'), INTERP]
import harness
import rows
import worked
from harness import ways

PROGRAMS = {'random.txt': 340, 'by_hand.txt': 81, 'arrays.txt': 40, 'constants.txt': 60, 'indices.txt': 60}
OTHERS = {'by_hand.txt': 106, 'undefined.txt': 77, 'random.txt': 300}


def known(case, row):
    """One of the programs kept here."""
    sources = ways.Sources(case.program, row.source, row.files)
    ticks = None if row.ticks == '*' else int(row.ticks)
    if ways.four_ways(case, 'program', sources, row.input, int(row.status), row.output, ticks):
        ways.listed(case, 'program', sources)


def other(case, row):
    """One of the programs for the interpreter: one with undefined behaviour is built too, and not run."""
    if row.status.isdigit():
        known(case, row)
    else:
        case.expect('build', ways.Sources(case.program, row.source, row.files).build(), (0, b'', b''))


def cases(_):
    for folder, prefix, programs, held in ((HERE, '', PROGRAMS, known), (INTERP, 'interp/', OTHERS, other)):
        for name, count in programs.items():
            found = rows.read(os.path.join(folder, name))
            for row in found:
                yield harness.Row(f'{prefix}{name} {row.name}', held, row)
            yield harness.number_of(f'{prefix}{name}', len(found), count)
    yield from worked.cases(None)


if __name__ == '__main__':
    sys.exit(harness.main(cases))
