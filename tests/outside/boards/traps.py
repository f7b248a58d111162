"""What programs of a few instructions come to: rows of this folder, and those of tests/outside/machine that trap."""
import os
import re
import subprocess
import tempfile

import boards

DATA = bytes(range(0x80, 0x90))
MEMORY = 22
MACHINE = os.path.join(boards.ROOT, 'tests', 'outside', 'machine')
END = 'addi a0, zero, 0; addi a7, zero, 93; ecall'
MARK = 0xABADC0DE


class Row:
    """A program, what it answers, and which monitors it is for."""

    def __init__(self, name, file, answer, strict=False):
        self.name, self.file, self.answer, self.strict = name, file, answer, strict


def rows_of(path):
    with open(path, encoding='latin-1') as file:
        return [line.rstrip('\n') for line in file if line.strip() and not line.startswith('#')]


def trap_line(cause, address):
    return b'trap %s at 0x%s\n' % (cause.encode(), address.encode())


def answer_of(text):
    """`ends STATUS`, `CAUSE ADDRESS`, or one of them behind `writes BYTES, `, as a board answers it."""
    written = b''
    if text.startswith('writes '):
        written, text = bytes.fromhex(text[7:].split(', ')[0]), text.split(', ')[1]
    word, number = text.split()
    if word == 'ends':
        return int(number), written, b''
    return 125, written + trap_line(word, number), b''


def assembled(programs):
    """The words of each of some programs, by GNU as."""
    lines = ['.option norelax']
    for text in programs:
        lines += [line.strip() for line in text.split(';')] + ['.word 0x%x' % MARK]
    with tempfile.TemporaryDirectory() as folder:
        source, object_file, raw = [os.path.join(folder, name) for name in ('rows.s', 'rows.o', 'rows')]
        with open(source, 'w', encoding='latin-1') as file:
            file.write('\n'.join(lines) + '\n')
        subprocess.run(['riscv64-unknown-elf-as', '-march=rv32im', '-mabi=ilp32', source, '-o', object_file], check=True)
        subprocess.run(['riscv64-unknown-elf-objcopy', '-O', 'binary', '-j', '.text', object_file, raw], check=True)
        with open(raw, 'rb') as file:
            content = file.read()
    words = [int.from_bytes(content[k:k + 4], 'little') for k in range(0, len(content), 4)]
    found, now = [], []
    for word in words:
        if word == MARK:
            found, now = found + [now], []
        else:
            now.append(word)
    return found


def by_hand():
    """The rows of traps.txt."""
    parts = [[part.strip() for part in line.split(' | ')] for line in rows_of(os.path.join(boards.HERE, 'traps.txt'))]
    options = [part[3] if len(part) > 3 else '' for part in parts]
    codes = [part[1] if 'bare' in option else part[1] + ';' + END for part, option in zip(parts, options)]
    for part, option, words in zip(parts, options, assembled(codes)):
        entry = re.search(r'entry=(\w+)', option)
        stack = re.search(r'stack=(\d+)', option)
        file = boards.executable(words, DATA, int(entry.group(1), 16) if entry else 0x11000, MEMORY,
                                 int(stack.group(1)) if stack else 0x100000, b'\x13\0' if 'half' in option else b'')
        yield Row(part[0], file, answer_of(part[2]), 'strict' in option)


def other_words():
    """The words that are no instruction."""
    for line in rows_of(os.path.join(MACHINE, 'other_words.txt')):
        word, name = line.split('|')
        yield Row('the word ' + word + ', ' + name, boards.executable([int(word, 16)]), answer_of('Illegal 00011000'))


def calls():
    """The environment calls, of an input with a byte: `ended` is by a second call with what the first answered."""
    for line in rows_of(os.path.join(MACHINE, 'calls.txt')):
        arguments, outcome, _ = line.split('|')
        a0, a1, a2, a7 = arguments.split()
        words = assembled(['addi a0, zero, %s; lui a1, 0x%x; addi a2, zero, %s; addi a7, zero, %s; ecall; addi a7, zero, 93; ecall'
                           % (a0, int(a1, 16) >> 12, a2, a7)])[0]
        kind, *rest = outcome.split()
        written = 'writes 80, ' if a7 == '64' and kind == 'ended' else ''
        told = 'ends ' + rest[0] if kind == 'ended' else '%s %08X' % (rest[1], int(rest[0], 16))
        yield Row('the call ' + arguments, boards.executable(words, DATA), answer_of(written + told))


def runs():
    """The echo program at entries outside its text."""
    words = [int(line.split()[0], 16) for line in rows_of(os.path.join(MACHINE, 'echo.txt'))]
    for line in rows_of(os.path.join(MACHINE, 'runs.txt')):
        program, entry, _, outcomes = line.split('|')[:4]
        trapped = re.search(r'trapped (\w+) (\w+)', outcomes)
        if program == 'echo' and trapped:
            file = boards.executable(words, DATA, int(entry, 16))
            yield Row('echo from ' + entry, file, answer_of('%s %08X' % (trapped.group(2), int(trapped.group(1), 16))))


def check(compiler, on, row):
    """The row under `cc run` and on some boards."""
    counted = boards.Counted()
    with boards.Kept(row.file) as file:
        counted.expect('%s, cc run' % row.name, boards.answer_of_run(compiler, file, b'a'), row.answer)
        for board in on:
            counted.expect('%s, %s' % (row.name, board.name), board.run(file, b'a'), row.answer)
    return counted


def all_checks(compiler):
    """Tasks: each row on both boards; those by hand under the strict monitors too."""
    plain = [boards.Board('virt', many=True), boards.Board('flat', many=True)]
    strict = [boards.Board('virt', strict=True, many=True), boards.Board('flat', strict=True, many=True)]
    for row in by_hand():
        yield check, (compiler, strict if row.strict else plain + strict, row)
    for row in [*other_words(), *calls(), *runs()]:
        yield check, (compiler, plain, row)
