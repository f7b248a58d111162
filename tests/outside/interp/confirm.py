#!/usr/bin/env python3
"""Confirms by gcc, clang and `ticks.py` what the files of programs say: `confirm.py [--ticks] FILE ..`.

With --ticks it writes into the files the ticks that `ticks.py` counts.
"""
import sys

import others
import rows
import ticks

LARGEST = 100000000


def answers(row):
    """What the others say that a program comes to: pairs of a status and an output, and the ticks counted."""
    found, counted = [], '*'
    if not row.preprocessed:
        ending, output, spent = ticks.Machine(row.source).run(LARGEST, row.input)
        found.append((rows.status_of(ending), output))
        counted = str(spent)
    if row.status.isdigit() and not row.name.endswith('_own'):
        found += [(str(status), output) for status, output in others.all_of_them(row.source, row.input, row.files)]
    return found, counted


def confirm(path, write):
    wrong, counts = 0, {}
    for row in rows.read(path):
        found, counts[row.name] = answers(row)
        if not write and row.ticks != counts[row.name]:
            found.append('%s ticks' % counts[row.name])
        for answer in found:
            if answer != (row.status, row.output):
                wrong += 1
                print('%s: %s: %s, not %s' % (path, row.name, answer, (row.status, row.output)))
    if write:
        rows.write_ticks(path, counts)
    return wrong


def main():
    wrong = sum(confirm(path, '--ticks' in sys.argv) for path in sys.argv[1:] if path != '--ticks')
    print('%d differ' % wrong)
    return wrong


if __name__ == '__main__':
    sys.exit(ticks.deep(main) != 0)
