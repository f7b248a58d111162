#!/usr/bin/env python3
"""The rows of crates/test_code for what no command of the program `cc` shows, by hand; `../rows.py` writes them.

A frame has a name, bytes and weight, 64 bytes and 16 a node, and 4 for `n`; the return address and the caller's `s0`, in which `n` lives, rounded up to
16 bytes. A set without its main file is refused with 103; a source is read and written out again, the longest one too, and one of a byte more is
refused with 701.
"""
import os
import sys

HERE = os.path.dirname(os.path.abspath(__file__))
sys.path[:0] = [os.path.dirname(os.path.dirname(HERE)), HERE]
import harness

MAIN = 'int main(void) { return 42; }\n'


def compiled():
    yield harness.row_of('frames', 'int main(void) {return 42;}\n'), 'main 16 128;'
    yield harness.row_of('frames', 'int f(int n) { if (n == 0) return 0; return f(n - 1); }\nint main(void) {return f(3000);}\n'), 'f 16 304;main 16 144;'
    yield harness.row_of('missing', 'a.c'), '1 a.c:0: 103 main file not given\\n'
    yield harness.row_of('passed', MAIN), harness.field_of(MAIN.encode())
    yield harness.row_of('passed_length', ' ', 1048576), 1048576
    yield harness.row_of('passed_length', ' ', 1048577), 'main.c:0: 701 limit: file size'


# so many rows there are
KINDS = [(compiled, 6)]
