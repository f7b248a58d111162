#!/usr/bin/env python3
"""Holds the memory that `interp` takes of the host to what docs/design/semantics.md says of it.

    python3 tests/outside/hostile/interp_memory.py bin/cc

Each row asks for many objects or many active calls. How many elements it has is read off the source; how many calls are active
when the ticks are used follows from what takes a tick. The most resident memory is printed beside each row, and that of a program
which does nothing is taken off it; what is left is held to so many bytes an element or a call. The bounds of an element and that of a
call of one int are what was asked for; those of the other calls are what was measured and some room, so that a run which takes more is seen.
The last line is 'N passed, M failed'."""
import os
import sys

sys.path.insert(0, os.path.join(os.path.dirname(os.path.abspath(__file__)), '..', '..'))
import harness

TICKS = 10000000
MEBI = 1 << 20
EMPTY = 'int main(void) { return 0; }\n'
STATICS = ''.join(f'char a{i}[{MEBI}];\n' for i in range(15)) + f'char a15[{MEBI - 64}];\n' + 'int main(void) { return a0[7] + a15[9]; }\n'
ROWS_OF_ONE = ''.join(f'int a{i}[65536][1][1];\n' for i in range(16)) + 'int main(void) { return a0[7][0][0]; }\n'
# A tick each: the block, return, the call, +, the value of n, n, 1, and the parameter. That a call takes 8, 6 and 15 ticks was
# counted by rv_putbyte(65); before each return, which takes 3 more.
FOREVER = 'int f(int n) { return f(n + 1); }\nint main(void) { return f(0); }\n'
ARRAYS = 'int g(int a[]) { return g(a); }\nint b[3];\nint main(void) { return g(b); }\n'
LOCAL = 'int f(int n) { int a[16]; a[3] = n; return f(a[3]); }\nint main(void) { return f(0); }\n'

# name, source, status, how many, of what, the most bytes of each
ROWS = [
    ('statics of 16 MiB', STATICS, 0, 16 * MEBI - 64, 'element', 9),
    ('statics of 16 MiB in rows of one', ROWS_OF_ONE, 0, MEBI, 'element', 12),
    ('an endless recursion', FOREVER, 124, TICKS // 8, 'call', 200),
    ('an endless recursion that passes an array', ARRAYS, 124, TICKS // 6, 'call', 600),
    ('an endless recursion with an array of 16', LOCAL, 124, TICKS // 15, 'call', 800),
]


def measured(case, source):
    """The status and the most resident memory in bytes."""
    case.program.write('many.c', source)
    done = case.program.measured('interp', 'many.c', '--max', str(TICKS), memory=2 << 30, cpu=120)
    return done.status, done.megabytes * MEBI


def held(case, source, wanted, count, what, most):
    _, nothing = measured(case, EMPTY)
    status, peak = measured(case, source)
    each = (peak - nothing) / count
    print(f'{peak / MEBI:6.1f} MB  {each:6.1f} bytes of each {what}  {case.name()}', flush=True)
    wrong = f'status {status} and not {wanted}' if status != wanted else '' if each <= most else f'{each:.1f} bytes of each {what}, more than {most}'
    case.holds(wrong, not wrong)


def cases(_):
    for name, *row in ROWS:
        yield harness.Row(name, held, *row)


if __name__ == '__main__':
    sys.exit(harness.main(cases))
