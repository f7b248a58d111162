#!/usr/bin/env python3
"""check.py CODE [COUNT [SEED]]: the programs by hand and so many random ones, on the machine by test_code, and their files under qemu-riscv32.
The last line counts both."""
import os
import sys

HERE = os.path.dirname(os.path.abspath(__file__))
import machine
import rows


def main():
    program, counted = os.path.abspath(sys.argv[1]), machine.harness.Verdict()
    count, seed = (sys.argv[2:4] + ['500', '1'][len(sys.argv[2:4]):])
    random_rows = list(rows.read(machine.written(os.path.join(HERE, 'generate.py'), count, seed)))
    for some in (rows.of_file(os.path.join(HERE, 'programs.txt')), random_rows):
        machine.try_rows(counted, program, 'flat', some, rows)
    return counted.end()


if __name__ == '__main__':
    sys.exit(main())
