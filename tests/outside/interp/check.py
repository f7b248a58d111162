#!/usr/bin/env python3
"""Holds `CC interp` against the programs kept here: `check.py CC`. The last line counts what passed and failed.

Each program is interpreted without a bound, with just its ticks, and with one tick less, with which it must not end, having written
a beginning of its output. Those of UNENDING are interpreted with some bounds, at each of which they are stopped.
"""
import os
import sys

HERE = os.path.dirname(os.path.abspath(__file__))
sys.path.insert(0, os.path.dirname(os.path.dirname(HERE)))
import harness
import rows

PROGRAMS = {'random.txt': 300, 'by_hand.txt': 106, 'undefined.txt': 77}
STOPPED = (124, b'cc: budget used\n')
# Loops that no turn leaves, whose turns take one, two or more ticks.
UNENDING = ['for (;;) ;', 'while (1) ;', 'do ; while (1);', 'for (;;) for (;;) ;', 'int n = 0; for (;;) n = 1 - n;', 'unsigned n; for (n = 0; ; n++) continue;']
BOUNDS = [1, 2, 3, 4, 5, 6, 7, 8, 60, 61, 62, 63, 100000]


def wanted(row):
    """Status and the text on standard error."""
    if row.status.isdigit():
        return int(row.status), b''
    act, place = row.status.split(' ', 1)
    return 123, ('%s: undefined %s\n' % (place, act)).encode('latin-1')


def interpret(case, row, bound):
    """Status, errors and output of a run with so many ticks."""
    names = ['main.c', *[name for name, _ in row.files]]
    status, output, line = case.program.run('interp', *names, *([] if bound is None else ['--max', str(bound)]), given=row.input)
    return status, line, output


def held(case, row):
    for name, text in [('main.c', row.source), *row.files]:
        case.program.write(name, text)
    bounds = [None] if row.ticks == '*' else [None, int(row.ticks)]
    for bound in bounds:
        case.expect(f'with {bound or "ample"} ticks', interpret(case, row, bound), (*wanted(row), row.output))
    if row.ticks != '*':
        status, line, output = interpret(case, row, int(row.ticks) - 1)
        case.expect('with one tick less', (status, line, row.output.startswith(output)), (*STOPPED, True))


def unending(case, statements):
    """Stopped at each bound."""
    row = rows.Row('%s | - | * | - | -' % statements)
    case.program.write('main.c', 'int main(void) { %s }\n' % statements)
    for bound in BOUNDS:
        case.expect(f'with {bound} ticks', interpret(case, row, bound), (*STOPPED, b''))


def cases(_):
    for statements in UNENDING:
        yield harness.Row(statements, unending, statements)
    for name, count in PROGRAMS.items():
        all_of_them = rows.read(os.path.join(HERE, name))
        for row in all_of_them:
            yield harness.Row(f'{name} {row.name}', held, row)
        yield harness.number_of(name, len(all_of_them), count)


if __name__ == '__main__':
    sys.exit(harness.main(cases))
