#!/usr/bin/env python3
"""Each public function of a crate has a doc comment. Programs of rows are left out: none is a part of the compiler.

    python3 tests/doc_comments.py

Called from the repository's root. A check a crate; the last line counts them."""
import glob
import os
import re

import harness

FUNCTION = re.compile(r'\s*pub (const |unsafe )*fn (\w+)')


def bare(path):
    """The public functions of a file above which no line of a doc comment stands."""
    with open(path, encoding='utf-8') as file:
        lines = file.read().split('\n')
    for number, line in enumerate(lines):
        function = FUNCTION.match(line)
        above = number - 1
        while function and above >= 0 and lines[above].strip().startswith('#['):
            above -= 1
        if function and not lines[above].strip().startswith('///'):
            yield f'{path}:{number + 1}: {function[2]}'


def main():
    verdict = harness.Verdict()
    for folder in sorted(it for it in glob.glob('crates/*/src') if not it.startswith('crates/test_')):
        lacking = [it for at, _, names in os.walk(folder) for name in sorted(names) if name.endswith('.rt') for it in bare(f'{at}/{name}')]
        verdict.holds(f'{folder}: no doc comment: {", ".join(lacking)}', not lacking)
    return verdict.end()


if __name__ == '__main__':
    raise SystemExit(main())
