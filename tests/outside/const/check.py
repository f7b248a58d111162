#!/usr/bin/env python3
"""check.py CC: the constant expressions of rows.txt. A row is a file scope that ends with `enum { e = EXPRESSION };`, and the expression's type
and value, or the line of its fault. The last line counts.

A refused row has to be refused with its line. Of another the value, the size and the sign of its type are held by static
assertions, which have to hold, and one of another value not. `int` and `long` are alike in all of this: the type's name is a row of
crates/test_calls.
"""
import os
import re
import sys

HERE = os.path.dirname(os.path.abspath(__file__))
sys.path.insert(0, os.path.dirname(os.path.dirname(HERE)))
import harness

ROWS = 379
SIZES = {'_Bool': 1, 'char': 1, 'signed char': 1, 'unsigned char': 1, 'short': 2, 'unsigned short': 2, 'int': 4, 'unsigned int': 4, 'long': 4, 'unsigned long': 4}
MAIN = 'int main(void) { return 0; }\n'


def rows():
    with open(os.path.join(HERE, 'rows.txt'), encoding='ascii') as file:
        for part in file.read().split('===\n')[1:]:
            yield re.fullmatch(r'(.*\n)--- ([^\n]*)\n', part, re.S).groups()


def literal(value):
    if value > 2 ** 31 - 1:
        return f'{value}u'
    return '(-2147483647 - 1)' if value == -2 ** 31 else f'({value})'


def assertions(source, name, value):
    """The row's source with what has to hold of its expression, and one with something that does not hold."""
    head, text = re.fullmatch(r'(.*?)enum \{ e = (.*) \};\n', source, re.S).groups()
    is_small, is_deep = -2 ** 31 <= value < 2 ** 31, max(text.count('('), text.count('-'), text.count('?')) > 50
    named = source if is_small else head
    of = 'e' if is_small else text
    held = [f'({of}) == {literal(value)}']
    if not is_deep:
        is_unsigned = name in ('unsigned int', 'unsigned long')
        held += [f'({text}) == {literal(value)}', f'sizeof({text}) == {SIZES[name]}', f'(0 * ({text}) - 1 < 0) == {int(not is_unsigned)}']
    good = ''.join(f'_Static_assert({it}, "m");\n' for it in held)
    bad = f'_Static_assert(\n({of}) != {literal(value)}, "m");\n'
    return named + good + MAIN, named + bad + MAIN, named.count('\n') + 1


def ask(program, row):
    """What was found of a row, and what was wanted, in pairs."""
    source, wanted = row
    if wanted.startswith('main.c:'):
        return [(program.checked(source + MAIN), wanted)]
    name, value = wanted.rsplit(' ', 1)
    good, bad, line = assertions(source, name, int(value))
    return [(program.checked(good), 'ok'), (program.checked(bad), f'main.c:{line}: 523 static assertion failed')]


def held(case, row):
    for found, wanted in ask(case.program, row):
        case.expect('', found, wanted)


def cases(_):
    all_of_them = list(rows())
    for row in all_of_them:
        yield harness.Row(row[0], held, row)
    yield harness.number_of('rows', len(all_of_them), ROWS)


if __name__ == '__main__':
    sys.exit(harness.main(cases))
