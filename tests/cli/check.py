#!/usr/bin/env python3
"""check.py CC: the command line, by what each command says, writes and ends with. The cases are the classes of the files here."""
import os
import sys

HERE = os.path.dirname(os.path.abspath(__file__))
sys.path.insert(0, os.path.dirname(HERE))
import harness

MODULES = ('build', 'limits', 'usage', 'run', 'interp', 'streams', 'foreign')


def cases(_):
    return harness.classes_of(*[__import__(f'test_{name}') for name in MODULES])


if __name__ == '__main__':
    sys.exit(harness.main(cases))
