#!/usr/bin/env python3
"""Holds the boards against `cc run`: `check.py CC [PART ..]`. The last line counts what passed, failed and was skipped. Where
qemu-system-misc or binutils-riscv64-unknown-elf is missing, all is skipped."""
import os
import shutil
import sys

HERE = os.path.dirname(os.path.abspath(__file__))
sys.path.insert(0, os.path.dirname(os.path.dirname(HERE)))
import harness
import lines
import mutants
import page
import programs
import table
import traps

# The long ones first.
PARTS = {'table': table, 'lines': lines, 'page': page, 'mutants': mutants, 'traps': traps, 'programs': programs}
TOOLS = ('qemu-system-riscv32', 'riscv64-unknown-elf-as', 'riscv64-unknown-elf-ld', 'riscv64-unknown-elf-objcopy')
# So many checks there are: rows that are lost do not go unseen.
CHECKS = 1302


def told(value):
    """What a case is called by: a text, the name of a board or of a row."""
    if isinstance(value, (list, tuple)):
        return ' '.join(filter(None, map(told, value)))
    return value if isinstance(value, str) else str(getattr(value, 'name', ''))


def held(case, function, words):
    case.verdict.add(function(*words))


def left_out(case, tool):
    case.skip(CHECKS, f'{tool} is missing')


def cases(compiler, *parts):
    for tool in TOOLS:
        if not shutil.which(tool):
            yield harness.Row('boards', left_out, tool)
            return
    for name in parts or PARTS:
        for function, words in PARTS[name].all_checks(compiler):
            called = told([word for word in words if word != compiler])
            yield harness.Row(f'{name} {function.__name__} {called}'.strip()[:200], held, function, words)


if __name__ == '__main__':
    sys.exit(harness.main(cases, checks=CHECKS, most=4))
