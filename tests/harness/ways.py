"""A program four ways: interpreted, built, run by `run`, and run by qemu-riscv32 where it is there. And its listing."""
import os
import re
import shutil
import stat
import subprocess

from . import elf

QEMU = shutil.which('qemu-riscv32')
TEXT = 0x11000
# rvio.h for the host: what is read and written are the standard streams.
PORT = '''#include <stdio.h>
#include <stdlib.h>
int rv_getbyte(void) { int c = getchar(); return c == EOF ? -1 : c; }
void rv_putbyte(int c) { putchar(c & 255); }
void rv_exit(int status) { exit(status & 255); }
'''
RVIO = 'int rv_getbyte(void);\nvoid rv_putbyte(int c);\nvoid rv_exit(int status);\n'


class Sources:
    """A program's sources, alone in the folder of this thread. `stack`: the size that each command is told."""

    def __init__(self, program, source, files=(), stack=None):
        program.fresh()
        self.program, self.names = program, ['main.c', *[name for name, _ in files]]
        self.stack = [] if stack is None else ['--stack', str(stack)]
        for name, text in [('main.c', source), *files]:
            program.write(name, text)

    @staticmethod
    def bound(most):
        return [] if most is None else ['--max', str(most)]

    def ask(self, command, *more, data=b''):
        """Status, output and errors of a command over the sources."""
        return self.program.run(command, *self.names, *self.stack, *more, given=data)

    def interpret(self, data=b'', most=None):
        return self.ask('interp', *self.bound(most), data=data)

    def build(self):
        return self.ask('build', '-o', 'program')

    def listing(self):
        return self.ask('list')

    def file(self):
        """The built file, or nothing where there is none."""
        return self.program.read('program')

    def words(self):
        """The words of the built file's text, its first segment."""
        return elf.words_of(self.file())

    def simulate(self, data=b'', most=None):
        return self.program.run('run', 'program', *self.bound(most), given=data)

    def emulate(self, data=b''):
        return self.program.run('./program', given=data, by=[QEMU])


def least(enough):
    """The least bound that is enough."""
    low, high = 0, 1
    while not enough(high):
        low, high = high, high * 2
    while high - low > 1:
        middle = (low + high) // 2
        low, high = (low, middle) if enough(middle) else (middle, high)
    return high


def four_ways(case, name, sources, data, status, output, ticks=None):
    """Whether it was built. `ticks` have to be enough for the interpreter, and 60 instructions for each and 66 more for the simulator."""
    wanted = (status, output, b'')
    case.expect(name + ', interp', sources.interpret(data, ticks), wanted)
    built = sources.build()
    case.expect(name + ', build', built, (0, b'', b''))
    if built[0] != 0:
        return False
    case.expect(name + ', run', sources.simulate(data, None if ticks is None else 60 * ticks + 66), wanted)
    if QEMU:
        case.expect(name + ', qemu-riscv32', sources.emulate(data), wanted)
    else:
        case.skip(1, 'qemu-riscv32 is missing')
    return True


def listed(case, name, sources):
    """The listing has a line for each word of the file's text: its address and itself."""
    status, output, line = sources.listing()
    wanted = ['%08X %08X' % (TEXT + 4 * k, word) for k, word in enumerate(sources.words())]
    found = [text[:17] for text in output.decode('latin-1').split('\n')]
    case.expect(name + ', list', (status, line, found), (0, b'', wanted + ['']))


HEADINGS = re.compile(r' *(Class|Data|Type|Machine|Entry point address|Start of .* headers|Flags|Number of .* headers):| *LOAD ')


def laid_out(case, name, sources, objects=False):
    """The file may be executed, and readelf reads its headers without a complaint: text at 0x11000, data on the next page (16 zero bytes,
    and more where the program has `objects` of its own), the stack."""
    file = sources.file()
    case.holds(f'{name}: the file may not be executed', os.stat(sources.program.at('program')).st_mode & stat.S_IXUSR)
    readelf = shutil.which('riscv64-unknown-elf-readelf') or case.tool('readelf', 5)
    if not readelf:
        return
    told = subprocess.run([readelf, '-hlW', 'program'], cwd=sources.program.folder(), capture_output=True, text=True, check=False)
    case.expect(f'{name}, readelf complains', (told.returncode, told.stderr, 'warning' in told.stdout.lower()), (0, '', False))
    text, data = [segment.filesz for segment in elf.segments_of(file)[:2]]
    data = data if objects else 16
    at = (TEXT + text + elf.PAGE - 1) // elf.PAGE * elf.PAGE
    wanted = ['Class: ELF32', "Data: 2's complement, little endian", 'Type: EXEC (Executable file)', 'Machine: RISC-V', 'Entry point address: 0x11000',
              'Start of program headers: 52 (bytes into file)', 'Start of section headers: 0 (bytes into file)', 'Flags: 0x0',
              'Number of program headers: 3', 'Number of section headers: 0',
              'LOAD 0x001000 0x00011000 0x00011000 0x%05x 0x%05x E 0x1000' % (text, text),
              'LOAD 0x%06x 0x%08x 0x%08x 0x%05x 0x%05x RW 0x1000' % (at - 0x10000, at, at, data, data),
              'LOAD 0x000000 0x7ff00000 0x7ff00000 0x00000 0x100000 RW 0x1000']
    case.expect(f'{name}, headers', [' '.join(line.split()) for line in told.stdout.splitlines() if HEADINGS.match(line)], wanted)
    case.holds(f'{name}: text of {text} bytes', text > 0 and text % 4 == 0)
    case.expect(f'{name}: the file ends with the last byte of the data', len(file), at - 0x10000 + data)
    case.expect(f'{name}: the data begin with 16 zero bytes', file[at - 0x10000:][:16], bytes(16))
