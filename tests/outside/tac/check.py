#!/usr/bin/env python3
"""check.py CODE [COUNT [SEED]]: the three-address programs by hand and so many random ones, on the machine by test_code, and their files under
qemu-riscv32; those by hand on the interpreter here as well. The last line counts all."""
import os
import re
import subprocess
import sys

HERE = os.path.dirname(os.path.abspath(__file__))
sys.path.insert(1, os.path.join(HERE, '..', 'flat'))
import rows
import machine


def main():
    program, counted = os.path.abspath(sys.argv[1]), machine.harness.Verdict()
    count, seed = (sys.argv[2:4] + ['500', '1'][len(sys.argv[2:4]):])
    by_hand = os.path.join(HERE, 'programs.txt')
    told = subprocess.run([sys.executable, os.path.join(HERE, 'interpreter.py'), by_hand], capture_output=True, text=True, check=False).stdout
    counts = re.fullmatch(r'(\d+) passed, (\d+) failed', told.splitlines()[-1])
    print('\n'.join(told.splitlines()[:-1]))
    counted.passed, counted.failed = int(counts.group(1)), int(counts.group(2))
    for some in (rows.of_file(by_hand), list(rows.read(machine.written(os.path.join(HERE, 'generate.py'), count, seed)))):
        machine.try_rows(counted, program, 'tac', some, rows)
    return counted.end()


if __name__ == '__main__':
    sys.exit(main())
