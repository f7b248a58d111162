#!/usr/bin/env python3
"""check.py CC: each program here does what stands beside it, under every command and by the tools of others.

NAME.c is built, and does with the input NAME.in what NAME.out (bytes) and NAME.status say: interpreted, run, run by qemu-riscv32, and as gcc
of this machine compiles it. A file that is not there is empty, a status 0. readelf reads the file's headers without a complaint, and the
listing has a line for each word. A further case is a further file; those of EXAMPLES have their source in examples/. The wanted bytes and
statuses are those of gcc."""
import os
import subprocess
import sys

HERE = os.path.dirname(os.path.abspath(__file__))
sys.path.insert(0, os.path.dirname(HERE))
import harness
from harness import ways

# Cases of examples/, each with its source there.
EXAMPLES = {'collatz': 'collatz.c', 'collatz_27': 'collatz.c', 'hello': 'hello.c', 'nested': 'nested.c', 'sums': 'sums.c', 'tour': 'tour.c'}
# Programs with an object of their own in the data: a string literal.
WITH_DATA = ('hello',)


def beside(name, suffix):
    """The bytes of NAME.suffix, none where it is not there."""
    path = os.path.join(HERE, name + suffix)
    if not os.path.exists(path):
        return b''
    with open(path, 'rb') as file:
        return file.read()


def source_of(name):
    if name not in EXAMPLES:
        return beside(name, '.c')
    with open(os.path.join(HERE, '..', '..', 'examples', EXAMPLES[name]), 'rb') as file:
        return file.read()


def by_gcc(case, source, given, wanted):
    """What the host's gcc makes of the source."""
    if not case.tool('gcc', 2):
        return
    program = case.program
    program.write('port.c', ways.PORT)
    program.write('rvio.h', ways.RVIO)
    program.write('host.c', source)
    words = ['gcc', '-std=c11', '-w', '-fno-builtin', '-I.', 'host.c', 'port.c', '-o', 'host']
    made = subprocess.run(words, cwd=program.folder(), capture_output=True, text=True, check=False)
    case.expect('gcc', (made.returncode, made.stderr), (0, ''))
    case.expect('built by gcc', program.run(given=given, by=['./host']), wanted)


def does(case, source, given, status, output, objects=False):
    """A program all ways."""
    sources = ways.Sources(case.program, source)
    if ways.four_ways(case, 'program', sources, given, status, output):
        ways.listed(case, 'program', sources)
        ways.laid_out(case, 'program', sources, objects)
    by_gcc(case, source, given, (status, output, b''))


def cases(_):
    names = {file.removesuffix('.c') for file in os.listdir(HERE) if file.endswith('.c')}
    for name in sorted(names | set(EXAMPLES)):
        status = int(beside(name, '.status') or 0)
        yield harness.Row(name, does, source_of(name), beside(name, '.in'), status, beside(name, '.out'), name in WITH_DATA)


if __name__ == '__main__':
    sys.exit(harness.main(cases))
