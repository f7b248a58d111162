"""Every instruction of RV32IM over edge operands: tests/cli/table.s as a file in the form of `cc build`."""
import os
import shutil
import struct
import subprocess
import tempfile

import boards

SOURCE = os.path.join(os.path.dirname(os.path.dirname(boards.HERE)), 'cli', 'table.s')
QEMU = shutil.which('qemu-riscv32')
DATA = 0x13000
STATUS = 48


def linked(folder):
    """The program as GNU ld links it, with its text at 0x11000 and its data at DATA."""
    made = os.path.join(folder, 'table')
    subprocess.run(['riscv64-unknown-elf-as', '-march=rv32im', '-mabi=ilp32', SOURCE, '-o', made + '.o'], check=True)
    subprocess.run(['riscv64-unknown-elf-ld', '-m', 'elf32lriscv', '--no-relax', '-Ttext=0x11000', '-Tdata=0x%x' % DATA, made + '.o', '-o', made],
                   check=True)
    return made


def section(made, name):
    raw = made + name
    subprocess.run(['riscv64-unknown-elf-objcopy', '-O', 'binary', '-j', name, made, raw], check=True)
    with open(raw, 'rb') as file:
        return file.read()


def file_of(made):
    """The same text, data and entry with the program headers of `cc build`."""
    text = section(made, '.text')
    with open(made, 'rb') as file:
        entry = struct.unpack_from('<I', file.read(), 24)[0]
    if 0x11000 + (len(text) + 4095) // 4096 * 4096 != DATA:
        raise OSError('table.s has %d bytes of text' % len(text))
    return boards.executable(struct.unpack('<%dI' % (len(text) // 4), text), section(made, '.data'), entry)


def check(compiler, on):
    """The same bytes as under `cc run` and, where it is there, qemu-riscv32."""
    counted = boards.Counted()
    with tempfile.TemporaryDirectory() as folder:
        made = linked(folder)
        with boards.Kept(file_of(made)) as file:
            wanted = boards.answer_of_run(compiler, file)
            counted.expect('table.s, cc run', (wanted[0], wanted[2], len(wanted[1]) > 1000), (STATUS, b'', True))
            if QEMU:
                counted.expect('table.s, qemu-riscv32', boards.run([QEMU, made]), wanted)
            else:
                counted.skip(1, 'qemu-riscv32 is missing')
            for board in on:
                counted.expect('table.s, ' + board.name, board.run(file), wanted)
    return counted


def all_checks(compiler):
    on = [boards.Board(name, strict=strict) for name in ('virt', 'flat') for strict in (False, True)]
    yield check, (compiler, on)
