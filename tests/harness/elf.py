"""ELF files made of fields, changed and cut: by the gABI (chapter 4, "ELF Header"; chapter 5, "Program Header") and the RISC-V psABI."""
import struct
from dataclasses import dataclass, field

EXECUTABLE, RISCV = 2, 243
LOAD = 1
READ, WRITE, EXECUTE = 4, 2, 1
HEADER, PROGRAM_HEADER, PAGE = 52, 32, 4096

# The offset of each field of the header, and of one of a program header.
OFFSETS = {'class': 4, 'order': 5, 'version': 6, 'type': 16, 'machine': 18, 'entry': 24, 'phoff': 28, 'shoff': 32, 'flags': 36, 'ehsize': 40,
           'phentsize': 42, 'phnum': 44, 'shentsize': 46, 'shnum': 48, 'shstrndx': 50}
IN_SEGMENT = {'type': 0, 'offset': 4, 'vaddr': 8, 'paddr': 12, 'filesz': 16, 'memsz': 20, 'flags': 24, 'align': 28}


def at(name, segment=None):
    """The offset of a field: of the header, or of the program header of that number."""
    return OFFSETS[name] if segment is None else HEADER + PROGRAM_HEADER * segment + IN_SEGMENT[name]


@dataclass
class Segment:
    """A program header; `memsz` is `filesz` unless it is told."""
    vaddr: int
    filesz: int
    offset: int = 0
    flags: int = READ | EXECUTE
    memsz: int = None
    type: int = LOAD
    align: int = PAGE
    paddr: int = None

    def bytes(self):
        memsz = self.filesz if self.memsz is None else self.memsz
        paddr = self.vaddr if self.paddr is None else self.paddr
        return struct.pack('<8I', self.type, self.offset, self.vaddr, paddr, self.filesz, memsz, self.flags, self.align)


@dataclass
class File:
    """A file: its header's fields, its program headers, and the bytes that lie behind them from `body_at`."""
    entry: int
    segments: list = field(default_factory=list)
    body: bytes = b''
    body_at: int = None
    type: int = EXECUTABLE
    machine: int = RISCV
    flags: int = 0
    order: int = 1
    bits: int = 1

    def bytes(self):
        ident = b'\x7fELF' + bytes([self.bits, self.order, 1]) + bytes(9)
        header = ident + struct.pack('<HHIIIIIHHHHHH', self.type, self.machine, 1, self.entry, HEADER, 0, self.flags, HEADER, PROGRAM_HEADER,
                                     len(self.segments), 0, 0, 0)
        front = header + b''.join(segment.bytes() for segment in self.segments)
        return front.ljust(self.body_at or len(front), b'\0') + self.body


def of_words(words, page=0x10000, entry=None):
    """An executable of one segment that may be read and executed, with the instruction words at page + 0x54, which is its entry."""
    text = b''.join(struct.pack('<I', word) for word in words)
    start = HEADER + PROGRAM_HEADER
    return File(page + start if entry is None else entry, [Segment(page + start, len(text), start)], text).bytes()


def changed(file, offset, new):
    """The file with other bytes at an offset."""
    return file[:offset] + new + file[offset + len(new):]


def segments_of(file):
    """The program headers of a file, field by field."""
    start, size, count = struct.unpack_from('<I', file, at('phoff'))[0], *struct.unpack_from('<HH', file, at('phentsize'))
    found = []
    for number in range(count):
        kind, offset, vaddr, paddr, filesz, memsz, flags, align = struct.unpack_from('<8I', file, start + size * number)
        found.append(Segment(vaddr, filesz, offset, flags, memsz, kind, align, paddr))
    return found


def text_of(file):
    """The bytes of a file's first segment."""
    first = segments_of(file)[0]
    return file[first.offset:first.offset + first.filesz]


def words_of(file):
    """The instruction words of a file's first segment."""
    text = text_of(file)
    return struct.unpack(f'<{len(text) // 4}I', text)


__all__ = ['EXECUTABLE', 'EXECUTE', 'File', 'HEADER', 'LOAD', 'PAGE', 'PROGRAM_HEADER', 'READ', 'RISCV', 'Segment', 'WRITE', 'at', 'changed', 'of_words',
           'segments_of', 'text_of', 'words_of']
