#!/usr/bin/env python3
"""check.py CC: the rows of the files here, what commands of the program write, say and end with. The first line of each file says what its
rows are and where they come from. A row has fields with tabs between them; in a field a backslash begins `\\\\`, `\\n`, `\\t` or `\\x` and two
digits. The last line counts."""
import os
import resource
import signal
import subprocess
import sys

HERE = os.path.dirname(os.path.abspath(__file__))
sys.path.insert(0, os.path.dirname(os.path.dirname(HERE)))
import harness
from harness import elf

TWO_BYTES = 'void rv_putbyte(int c); int main(void) { rv_putbyte(65); rv_putbyte(66); return 0; }\n'


def build(program, source):
    """The status and the line of a build as `out`, and the bytes of the file, none where there is none."""
    program.remove('out')
    program.write('main.c', source)
    status, output, line = program.run('build', 'main.c', '-o', 'out')
    return status, output + line, program.read('out')


def number(status):
    return str(status).encode()


def run_of(program, source):
    status, line, _ = build(program, source)
    if status != 0:
        return [number(status), line]
    status, output, line = program.run('run', 'out', '--max', '1000000')
    return [output, number(status) + line]


def runs(program, given):
    return run_of(program, given[0])


def refused(program, given):
    status, line, file = build(program, given[0])
    return [number(status), line] + ([b'a file was written'] if status != 0 and file else [])


def parts(program, given):
    return [build(program, given[0])[2][int(given[1]):int(given[2])]]


def deep(program, given):
    pairs = int(given[0])
    return run_of(program, 'int main(void) {return ' + '(' * pairs + '0' + ')' * pairs + ';}\n')


def run_file(program, file, most):
    program.write('out', file)
    status, output, line = program.run('run', 'out', '--max', most)
    return [number(status), output + line]


def cut(program, given):
    return run_file(program, build(program, given[0])[2][:int(given[1])], given[2].decode())


def texts(program, given):
    """A file of a text at 0x11000, by hand from the gABI: an ELF header, and program headers for the text and a stack."""
    text = given[0]
    segments = [elf.Segment(0x11000, len(text), elf.PAGE), elf.Segment(0x7ff00000, 0, flags=elf.READ | elf.WRITE, memsz=0x100000)]
    return run_file(program, elf.File(0x11000, segments, text, elf.PAGE).bytes(), given[1].decode())


def narrow(program, given):
    """Where a file may have so many bytes and no more, and the next is refused."""
    command, room = given[0].decode(), int(given[1])
    status, line, _ = build(program, TWO_BYTES)
    assert (status, line) == (0, b'')

    def limited():
        signal.signal(signal.SIGXFSZ, signal.SIG_IGN)
        resource.setrlimit(resource.RLIMIT_FSIZE, (room, room))
    words = {'build': ['build', 'main.c', '-o', 'out2'], 'run': ['run', 'out', '--max', '1000'], 'interp': ['interp', 'main.c', '--max', '1000']}[command]
    with open(os.path.join(program.folder(), 'written'), 'wb') as written:
        done = program.go(*words, stdin=subprocess.DEVNULL, stdout=written, before=limited)
    return [number(done.status), done.err.replace(b'out2:', b'out:')]


def printed(program, given):
    program.write('main.c', given[0])
    status, output, line = program.run('pp', 'main.c')
    return [output, number(status), line]


def listed(program, given):
    program.write('main.c', given[0])
    status, output, line = program.run('list', 'main.c')
    return [output, number(status), line]


def interpreted(program, given):
    program.write('main.c', given[0])
    status, output, line = program.run('interp', 'main.c', '--max', given[2].decode(), given=given[1])
    return [output, number(status), line]


# each file with what is asked, how many fields are given, and how many rows there are
SUBJECTS = [(runs, 1, 12), (refused, 1, 50), (parts, 3, 2), (deep, 1, 2), (cut, 3, 3), (texts, 2, 1), (narrow, 2, 3), (printed, 1, 10),
            (listed, 1, 2), (interpreted, 3, 35)]


def held(case, ask, given, wanted):
    case.expect(given, ask(case.program, given), wanted)


def cases(_):
    for ask, count, rows in SUBJECTS:
        all_of_them = list(harness.fields(os.path.join(HERE, ask.__name__)))
        for number, row in enumerate(all_of_them):
            yield harness.Row(f'{ask.__name__} {number}', held, ask, row[:count], row[count:])
        yield harness.number_of(ask.__name__, len(all_of_them), rows)


if __name__ == '__main__':
    sys.exit(harness.main(cases))
