#!/usr/bin/env python3
"""sets.py CC: the sets of files of sets.txt. A row is a main file, further ones behind a line `$ NAME`, and behind `---` its tokens with one space
between, or the line of its fault. A line `\\ no newline at the end` says that the one before it has none. The last line counts."""
import os
import re
import sys

HERE = os.path.dirname(os.path.abspath(__file__))
sys.path.insert(0, os.path.dirname(os.path.dirname(HERE)))
import harness

ROWS = 110


def rows():
    with open(os.path.join(HERE, 'sets.txt'), encoding='ascii') as file:
        for part in file.read().replace('\n\\ no newline at the end\n', '').split('===\n')[1:]:
            yield re.fullmatch(r'(.*)--- ?([^\n]*)\n', part, re.S).groups()


def ask(program, row):
    first, *others = re.split(r'^\$ ', row[0], flags=re.M)
    program.write('main.c', first)
    names = []
    for other in others:
        name, text = other.split('\n', 1)
        program.write(name, text)
        names.append(name)
    status, output, line = program.run('pp', 'main.c', *names)
    if status == 0 and not line and output.endswith(b'\n'):
        return output[:-1].decode()
    if status == 1 and not output and line.endswith(b'\n'):
        return line[:-1].decode()
    return f'status {status}, {output[:80]!r}, {line[:80]!r}'


def held(case, row):
    case.expect('', ask(case.program, row), row[1])


def cases(_):
    all_of_them = list(rows())
    for row in all_of_them:
        yield harness.Row(row[0], held, row)
    yield harness.number_of('rows', len(all_of_them), ROWS)


if __name__ == '__main__':
    sys.exit(harness.main(cases))
