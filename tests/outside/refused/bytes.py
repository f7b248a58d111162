#!/usr/bin/env python3
"""Refuses the program each byte that it reads and writes.

    python3 tests/outside/refused/bytes.py bin/cc

A program that copies its input is run and interpreted on all 256 bytes, of which the reader gives, or the writer takes, so many and
then fails (refusing.c, preloaded): its output is those bytes, and the fault 802 or 803. It needs gcc or clang for the C file.
The last line is 'N passed, M failed'."""
import os
import shutil
import subprocess
import sys
import tempfile
import threading
import unittest

HERE = os.path.dirname(os.path.abspath(__file__))
sys.path.insert(0, os.path.dirname(os.path.dirname(HERE)))
import harness

COPY = '#include <rvio.h>\n'\
       'int main(void) { int c; while ((c = rv_getbyte()) != -1) rv_putbyte(c); return 0; }\n'
BYTES = bytes(range(256))


def library(folder):
    """refusing.c, built to be preloaded; None where there is no compiler."""
    compiler = shutil.which('gcc') or shutil.which('clang')
    if not compiler:
        return None
    target = os.path.join(folder, 'refusing.so')
    subprocess.run([compiler, '-O2', '-shared', '-fPIC', '-D_GNU_SOURCE', '-o', target, os.path.join(HERE, 'refusing.c'), '-ldl'], check=True)
    return target


class Library:
    """refusing.c, built once for all cases."""

    def __init__(self):
        self.folder, self.lock, self.path = tempfile.TemporaryDirectory(), threading.Lock(), None

    def built(self):
        with self.lock:
            if self.path is None:
                self.path = library(self.folder.name) or ''
        if not self.path:
            raise unittest.SkipTest('no compiler for refusing.c')
        return self.path


PRELOADED = Library()


def copied(case, words, name):
    """Copies of so many bytes, by what fails: its output is those bytes, and one line."""
    case.program.write('copy.c', COPY)
    case.expect('build', case.program.run('build', 'copy.c', '-o', 'copy'), (0, b'', b''))
    code = b'802' if name == 'READ_UP_TO' else b'803'
    for count in range(256):
        env = {'PATH': os.environ.get('PATH', ''), 'LD_PRELOAD': PRELOADED.built(), name: str(count)}
        case.expect(f'{count} bytes', case.program.run(*words, given=BYTES, env=env), (126, BYTES[:count], b'cc: port fault ' + code + b'\n'))


def cases(_):
    for words in (['run', 'copy'], ['interp', 'copy.c']):
        for name in ('READ_UP_TO', 'WRITE_UP_TO'):
            yield harness.Row(f'{words[0]} {name}', copied, words, name)


if __name__ == '__main__':
    sys.exit(harness.main(cases))
