#!/usr/bin/env python3
"""check.py CC: interprets the programs of programs.txt with their ticks, and with one tick less, with which each is stopped, having written
a beginning of its output. The last line counts. (The input left and the greatest sum of weights are told by crates/test_code.)"""
import os
import sys

HERE = os.path.dirname(os.path.abspath(__file__))
sys.path.insert(0, os.path.dirname(os.path.dirname(HERE)))
import harness

ROWS = 121
STOPPED = (124, b'cc: budget used\n')


def rows():
    found = []
    with open(os.path.join(HERE, 'programs.txt'), encoding='ascii') as file:
        for line in file:
            if line.startswith('=== '):
                ticks, given, run, output, *_ = [part.strip() for part in line[4:].split('|')]
                found.append([int(ticks), numbers(given), wanted(run), numbers(output), ''])
            elif found:
                found[-1][4] += line
    return found


def numbers(text):
    return bytes(int(word) for word in text.split()) if text != '-' else b''


def wanted(run):
    """The status and the line on standard error."""
    kind, *parts = run.split(':')
    if kind == 'undefined':
        return 123, f'main.c:{parts[1]}: undefined {parts[0]}\n'.encode()
    return (int(parts[0]), b'') if kind == 'ended' else STOPPED


def held(case, ticks, given, ending, output, source):
    case.program.write('main.c', source)
    whole, less = [case.program.run('interp', 'main.c', '--max', str(most), given=given) for most in (ticks, ticks - 1)]
    case.expect('', whole, (ending[0], output, ending[1]))
    case.expect('with one tick less', ((less[0], less[2]), output.startswith(less[1])), (STOPPED, True))


def cases(_):
    all_of_them = rows()
    for row in all_of_them:
        yield harness.Row(row[4], held, *row)
    yield harness.number_of('rows', len(all_of_them), ROWS)


if __name__ == '__main__':
    sys.exit(harness.main(cases))
