# The board of `qemu-system-riscv32 -machine virt`: a core with Sv32 and PMP.
#
#   0x80000000   this monitor, in machine mode, below 0x80100000
#   0x800FFFF8   how the input ends (serial.s)
#   0x80100000   PAYLOAD: the file, byte for byte
#   MEMORY_END   pages are taken from here downwards: page tables, and those of the program
#
# The program's own addresses are none of these: the page tables lead from them to its pages.

        .equ    PAYLOAD, 0x80100000
        .ifndef MEMORY_END
        .equ    MEMORY_END, 0x88000000  # 128 MiB of memory
        .endif

        .include "start.s"
        .include "file.s"
        .include "words.s"
        .include "pages.s"
        .include "calls.s"
        .include "traps.s"
        .include "accesses.s"
        .include "serial.s"
