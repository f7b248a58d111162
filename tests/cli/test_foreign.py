"""Programs of other tools, under `run` and under qemu; and a built file, read by another disassembler."""
import os
import re
import subprocess

import harness
from commands import Commands, example
from harness import elf

HERE = os.path.dirname(os.path.abspath(__file__))
ASSEMBLER, LINKER, QEMU = 'riscv64-unknown-elf-as', 'riscv64-unknown-elf-ld', 'qemu-riscv32'


class Foreign(Commands):
    def linked(self, name, *words, section=()):
        """Assembles and links NAME.s as NAME."""
        harness.needs(ASSEMBLER, LINKER)
        for command in ([ASSEMBLER, '-march=rv32im', '-mabi=ilp32', *words, os.path.join(HERE, name + '.s'), '-o', 'object'],
                        [LINKER, '-m', 'elf32lriscv', '--no-relax', *section, 'object', '-o', name]):
            done = subprocess.run(command, cwd=self.program.folder(), capture_output=True, text=True, check=False)
            self.expect(command[0], (done.returncode, done.stderr), (0, ''))

    def by_qemu(self, name, **how):
        return self.program.run('./' + name, by=[QEMU], **how)

    def test_every_instruction_over_edge_operands(self):
        self.linked('table')
        ran = self.program.run('run', 'table')
        self.expect('status', (ran[0], ran[2]), (48, b''))
        if self.tool(QEMU, 2):
            emulated = self.by_qemu('table')
            self.expect('qemu-riscv32', (emulated[0], emulated[2]), (48, b''))
            self.expect('the same output', ran[1], emulated[1])

    def test_two_text_segments_near_and_far(self):
        """And a text that goes on past its first 16 MiB."""
        for between in (0, 4194304):
            self.linked('texts', '--defsym', f'between={between}', section=['--section-start=.far=0x40000000'])
            if self.tool(QEMU):
                self.expect(f'{between} words, qemu-riscv32', self.by_qemu('texts')[0], 15)
            self.expect(f'{between} words', self.program.run('run', 'texts', '--max', '16')[0], 15)
            self.expect(f'{between} words, one step less', self.program.run('run', 'texts', '--max', '15')[0], 124)

    def test_a_program_of_gcc(self):
        """It swaps the cases of letters; all byte values twice, after nine bytes, 521 in all, and so the status 9."""
        self.linked('echo')
        data = b'Nine Byte' + bytes(range(256)) * 2
        wanted = (9, data.swapcase(), b'')
        self.expect('run', self.program.run('run', 'echo', given=data), wanted)
        self.expect('run without input', self.program.run('run', 'echo'), (0, b'', b''))
        folder = os.open('.', os.O_RDONLY)
        self.expect('input that cannot be read', self.program.run('run', 'echo', stdin=folder), (126, b'', b'cc: port fault 802\n'))
        os.close(folder)
        if self.tool(QEMU):
            self.expect('qemu-riscv32', self.by_qemu('echo', given=data), wanted)

    def test_the_listing_of_the_tour(self):
        """Instruction by instruction, as written by hand in tour.listing."""
        objdump = harness.needs('riscv64-unknown-elf-objdump')
        self.write('main.c', example('tour.c'))
        self.builds('main.c')
        text = elf.segments_of(self.program.read('program'))[0]
        words = ['-D', '-b', 'binary', '-m', 'riscv:rv32', '-M', 'no-aliases', f'--start-address={text.offset}', f'--stop-address={text.offset + text.filesz}', 'program']
        shown = subprocess.run([objdump, *words], cwd=self.program.folder(), capture_output=True, text=True, check=False).stdout
        rows = [line.split('\t')[2:] for line in shown.splitlines() if line.count('\t') >= 2]
        found = [' '.join([row[0].strip(), *(re.sub(r' *[#<].*', '', field) for field in row[1:2])]).strip() for row in rows]
        self.expect('', found, [line.strip() for line in harness.lines(os.path.join(HERE, 'tour.listing'))])
