# A board without page tables: memory at the program's own addresses, and PMP.
#
#   0x00001000   this monitor, in machine mode
#   0x00011000   LOWEST: from here to PAYLOAD the program's text and data
#   0x40000000   PAYLOAD: the file, byte for byte
#   0x80000000   MEMORY_END: from the file's end to here, the program's stack at the end
#
# On qemu this is `-machine none -m 2048M`, a core and memory from 0 to 0x80000000, with nothing else: bytes and the end
# go by semihosting (serial.s). A board of your own has memory in two parts, below 0x80000000 and from 0x11000 on.

        .equ    LOWEST, 0x00011000
        .equ    PAYLOAD, 0x40000000
        .equ    MEMORY_END, 0x80000000

        .include "start.s"
        .include "file.s"
        .include "words.s"
        .include "regions.s"
        .include "calls.s"
        .include "traps.s"
        .include "accesses.s"
        .include "serial.s"
