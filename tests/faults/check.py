#!/usr/bin/env python3
"""check.py CC: each C file here is refused by a build with the line of its first comment, and no file is written.

The comment is `/* LINE: CODE TEXT */`, or `/* FILE:LINE: CODE TEXT */` where the fault is told of another file. It stands in the first line,
before the source, so that the source's lines keep their numbers. A further case is a further file."""
import os
import re
import sys

HERE = os.path.dirname(os.path.abspath(__file__))
sys.path.insert(0, os.path.dirname(HERE))
import harness

WANTED = re.compile(rb'/\* (?:([^ :]+):)?(\d+: \d{3} [^\n]*?) \*/')


def wanted_of(name, text):
    """The line that the first comment tells."""
    file, line = WANTED.match(text).groups()
    return (file or name.encode()) + b':' + line + b'\n'


def refused(case, name, text):
    program = case.program
    program.write(name, text)
    case.expect('', program.run('build', name, '-o', 'program'), (1, b'', wanted_of(name, text)))
    case.holds('a file was written', not os.path.lexists(program.at('program')))


def cases(_):
    for name in sorted(os.listdir(HERE)):
        if name.endswith('.c'):
            with open(os.path.join(HERE, name), 'rb') as file:
                yield harness.Row(name.removesuffix('.c'), refused, name, file.read())


if __name__ == '__main__':
    sys.exit(harness.main(cases))
