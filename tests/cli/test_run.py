"""run: files that do not load, budgets, traps, and programs made word by word."""
import struct

from commands import Commands, TOUR, USED
from harness import elf

JUMP_HERE = 0x0000006f
NOP = 0x00000013
EBREAK = 0x00100073

# name, words, page, address and cause of the trap
TRAPS = [
    ('ebreak', (EBREAK,), 0x10000, 0x10054, 'Break'),
    ('ebreak at a far address', (EBREAK,), 0x7abcd000, 0x7abcd054, 'Break'),
    ('addi, then ebreak', (0x00100093, EBREAK), 0x10000, 0x10058, 'Break'),
    ('all zeros', (0,), 0x10000, 0x10054, 'Illegal'),
    ('all ones', (0xffffffff,), 0x10000, 0x10054, 'Illegal'),
    ('a compressed word', (1,), 0x10000, 0x10054, 'Illegal'),
    ('lw ra,0(zero)', (0x00002083,), 0x10000, 0x10054, 'LoadFault'),
    ('lw ra,1(zero)', (0x00102083,), 0x10000, 0x10054, 'Misaligned'),
    ('sw zero,0(zero)', (0x00002023,), 0x10000, 0x10054, 'StoreFault'),
    ('auipc ra,0; sw zero,0(ra)', (0x00000097, 0x0000a023), 0x10000, 0x10058, 'StoreFault'),
    ('jal zero,2', (0x0020006f,), 0x10000, 0x10054, 'Target'),
    ('jalr zero,0(zero)', (0x00000067,), 0x10000, 0, 'FetchFault'),
    ('the end of the text', (NOP,), 0x10000, 0x10058, 'FetchFault'),
    ('an unknown call', (0x00000073,), 0x10000, 0x10054, 'BadCall'),
]


class Built(Commands):
    """A built file, whose bytes are in `file`."""

    def setUp(self):
        self.write('main.c', TOUR)
        self.program.run('build', 'main.c', '-o', 'hello')
        self.file = self.program.read('hello')

    def loads_not(self, name, file, fault):
        self.write('broken', file)
        self.ends(('run', 'broken'), 1, line=f'broken:0: {fault}', what=name)


class Files(Built):
    def test_files_that_are_none(self):
        self.ends(('run', 'none'), 1, line='none:0: 802 cannot read')
        self.ends(('run', 'main.c'), 1, line='main.c:0: 902 not ELF32 little endian')

    def test_files_that_are_cut(self):
        for length, fault in ((0, '901 ELF header too short'), (51, '901 ELF header too short'), (52, '905 bad program header')):
            self.loads_not(f'{length} bytes', self.file[:length], fault)

    def test_fields_that_are_wrong(self):
        text, data, stack = 0, 1, 2
        for name, offset, new, fault in (
                ('64 bits', elf.at('class'), b'\2', '902 not ELF32 little endian'),
                ('high byte first', elf.at('order'), b'\2', '902 not ELF32 little endian'),
                ('a shared object', elf.at('type'), b'\3', '903 not an executable'),
                ('another machine', elf.at('machine'), b'\x3e', '904 not RISC-V'),
                ('compressed code', elf.at('flags'), b'\1', '904 not RISC-V'),
                ('no program headers', elf.at('phnum'), b'\0', '905 bad program header'),
                ('a segment past the file', elf.at('filesz', text) + 2, b'\1', '905 bad program header'),
                ('data over text', elf.at('vaddr', data), b'\0\x10\1\0', '906 segments overlap'),
                ('too much memory', elf.at('memsz', stack) + 3, b'\x08', '907 too much memory')):
            self.loads_not(name, elf.changed(self.file, offset, new), fault)


class Budgets(Built):
    def test_budgets(self):
        """The largest; just enough; one too few; few."""
        self.ends(('run', 'hello', '--max', '9223372036854775807'), 42, b'H')
        self.ends(('run', '--max', '23', 'hello'), 42, b'H')
        self.ends(('run', 'hello', '--max', '22'), 124, b'H', USED)
        self.ends(('run', 'hello', '--max', '5'), 124, line=USED)
        self.ends(('run', 'hello', '--max', '1'), 124, line=USED)

    def test_a_jump_to_itself(self):
        self.write('loop', elf.of_words([JUMP_HERE]))
        self.ends(('run', 'loop', '--max', '1000'), 124, line=USED)

    def test_a_program_that_writes_for_ever(self):
        """Its own third instruction's first byte, a byte in 6 instructions: addi a7,zero,64; addi a0,zero,1; auipc a1,0; addi a2,zero,1;
        ecall; jal zero,-20."""
        self.write('writes', elf.of_words([0x04000893, 0x00100513, 0x00000597, 0x00100613, 0x00000073, 0xfedff06f]))
        self.ends(('run', 'writes', '--max', '1000'), 124, b'\x97' * 166, USED)
        self.ends(('run', 'writes', '--max', '1001'), 124, b'\x97' * 167, USED)


class Words(Commands):
    """Programs made word by word."""

    def test_traps(self):
        for name, words, page, address, cause in TRAPS:
            self.write('trapped', elf.of_words(words, page))
            self.ends(('run', 'trapped'), 125, line=f'cc: trap {cause} at 0x{address:08X}', what=name)

    def test_an_entry_between_instructions(self):
        self.write('trapped', elf.changed(elf.of_words([NOP]), elf.at('entry'), struct.pack('<I', 0x10056)))
        self.ends(('run', 'trapped'), 125, line='cc: trap Target at 0x00010056')

    def test_the_status_is_the_low_eight_bits(self):
        """addi a0,zero,-2; addi a7,zero,93; ecall."""
        self.write('minus_two', elf.of_words([0xffe00513, 0x05d00893, 0x00000073]))
        self.ends(('run', 'minus_two'), 254)
