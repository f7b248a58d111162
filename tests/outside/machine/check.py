#!/usr/bin/env python3
"""check.py CC: runs the sample file with the bytes of files.txt changed, and cut to each length of cuts.txt: the code of the fault, if it does not
load. The last line counts. What else stands here are rows of crates/test_calls (rows.py)."""
import os
import re
import sys

HERE = os.path.dirname(os.path.abspath(__file__))
sys.path.insert(0, os.path.dirname(os.path.dirname(HERE)))
import harness
import rows


def told(program, file):
    """`loads`, or the code of the fault."""
    program.write('out', file)
    status, _, line = program.run('run', 'out', '--max', '1000')
    fault = re.fullmatch(rb'out:0: (\d+) [^\n]*\n', line)
    return fault.group(1).decode() if status == 1 and fault else 'loads'


def files():
    for row in rows.lines('files'):
        changes, wanted = row.split('|')
        yield changes or 'as it is', rows.changed(changes), wanted


def cuts():
    for row in rows.lines('cuts'):
        lengths, wanted = row.split('|')
        first, past = [int(word) for word in lengths.split()]
        for length in range(first, past):
            yield f'cut to {length}', rows.sample()[:length], wanted


def held(case, file, wanted):
    case.expect('', told(case.program, file), wanted)


def cases(_):
    for kind, count in ((files, 23), (cuts, 8208)):
        asked = list(kind())
        for name, file, wanted in asked:
            yield harness.Row(name, held, file, wanted)
        yield harness.number_of(kind.__name__, len(asked), count)


if __name__ == '__main__':
    sys.exit(harness.main(cases))
