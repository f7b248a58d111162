#!/usr/bin/env python3
"""Writes the input of the programs of rows, crates/test_calls and crates/test_code, and what they must print, from the rows of the folders here:

    python3 tests/outside/rows.py test_calls|test_code [--check]

With --check it compares them with what stands there, and the last line counts. A row is its subject and fields, as tests/harness/rows.py has them. Each
script that is named here says where what it wants comes from; its KINDS are calls that give rows with what is wanted, and how many there are.
No row was made from this compiler's own output.
"""
import importlib.util
import os
import sys

HERE = os.path.dirname(os.path.abspath(__file__))
sys.path.insert(0, os.path.dirname(HERE))
import harness

SCRIPTS = {
    'test_calls': ['srcset/rows', 'front/calls', 'pp/stream', 'trees/rows', 'machine/rows'],
    'test_code': ['meaning/answers', 'cc/rows', 'flat/rows', 'tac/rows'],
}


def module(name):
    """The script of this name as a module."""
    spec = importlib.util.spec_from_file_location(name.replace('/', '_'), os.path.join(HERE, name + '.py'))
    found = importlib.util.module_from_spec(spec)
    spec.loader.exec_module(found)
    return found


def rows_of(crate):
    """The rows of a crate, and what is wanted of each."""
    for name in SCRIPTS[crate]:
        for kind, count in module(name).KINDS:
            made = list(kind())
            assert len(made) == count, (name, kind.__name__, len(made))
            for row, wanted in made:
                yield row, wanted if isinstance(wanted, bytes) else str(wanted).encode()


def main():
    crate = sys.argv.pop(1)
    rows = list(rows_of(crate))
    files = {name: b''.join(row[place] + b'\n' for row in rows) for place, name in enumerate(('stdin', 'stdout'))}
    return harness.made(os.path.join(HERE, '..', '..', 'crates', crate), files)


if __name__ == '__main__':
    sys.exit(main())
