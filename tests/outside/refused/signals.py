#!/usr/bin/env python3
"""Output that the system refuses by a signal.

    python3 tests/outside/refused/signals.py bin/cc

Each command writes to a pipe that nobody reads any more, and to a file that may not grow past 1,000 bytes, with SIGXFSZ ignored, as a
caller can: no signal ends it, and it tells 803 as for any other refusal. The last line is 'N passed, M failed'."""
import os
import resource
import signal
import subprocess
import sys

sys.path.insert(0, os.path.join(os.path.dirname(os.path.abspath(__file__)), '..', '..'))
import harness

# main writes 100,000 bytes; its listing and its tokens are longer than the limit too
SOURCE = b'#include <rvio.h>\n' + b''.join(b'int x%d;\n' % n for n in range(300)) + \
    b'int main(void) { for (int i = 0; i < 100000; i++) rv_putbyte(65); for (int k = 0; k < 3; k++) x7 = x7 * 3 + x8 - x9; return 0; }\n'
LIMIT = 1000
PORT = (126, b'cc: port fault 803\n')
OUT = (1, b'cc: 803 cannot write\n')
COMMANDS = {'run': (['run', 'built'], PORT), 'interp': (['interp', 'main.c'], PORT), 'pp': (['pp', 'main.c'], OUT), 'list': (['list', 'main.c'], OUT)}


def restrict():
    """For the process that is started: files of so many bytes, and a refusal in place of the signal."""
    signal.signal(signal.SIGXFSZ, signal.SIG_IGN)
    resource.setrlimit(resource.RLIMIT_FSIZE, (LIMIT, LIMIT))


def answer(case, words, out, before=None):
    """Status and what was said."""
    case.program.write('main.c', SOURCE)
    case.expect('build', case.program.run('build', 'main.c', '-o', 'built'), (0, b'', b''))
    done = case.program.go(*words, stdin=subprocess.DEVNULL, stdout=out, before=before, restore_signals=before is None)
    return done.status, done.err


def to_nobody(case, words):
    reader, writer = os.pipe()
    os.close(reader)
    try:
        return answer(case, words, writer)
    finally:
        os.close(writer)


def to_short_file(case, words):
    with open(case.program.at('written'), 'wb') as out:
        return answer(case, words, out, restrict)


def held(case, way, words, wanted):
    case.expect('', way(case, words), wanted)


def build_to_short_file(case):
    case.expect('', to_short_file(case, ['build', 'main.c', '-o', 'other']), (1, b'other:0: 803 cannot write\n'))
    case.holds('what is left of the file', os.path.getsize(case.program.at('other')) <= LIMIT)


def cases(_):
    for name, (words, wanted) in COMMANDS.items():
        yield harness.Row(name + ' to nobody', held, to_nobody, words, wanted)
        yield harness.Row(name + ' to a short file', held, to_short_file, words, wanted)
    yield harness.Row('build to a short file', build_to_short_file)


if __name__ == '__main__':
    sys.exit(harness.main(cases))
