# serial.s: bytes and the machine's end by semihosting: calls to qemu, or to a debugger that holds the core (the RISC-V
# semihosting specification; a0 is the operation, a1 its arguments). A board with a serial line has its own words here.

        .equ    SYS_OPEN, 0x01
        .equ    SYS_WRITE, 0x05
        .equ    SYS_READ, 0x06
        .equ    SYS_EXIT_EXTENDED, 0x20
        .equ    ENDED, 0x20026          # the application has ended

# semihosting: one call. The three words are its mark; they stand in one page.
#   takes   a0: the operation; a1: its arguments
#   leaves  a0: the answer
        .balign 16
semihosting:
        slli    zero, zero, 0x1F
        ebreak
        srai    zero, zero, 7
        ret

# line_begin: opens standard input and output.
line_begin:
        enter
        li      a1, 0                   # to read
        jal     stream
        la      t0, input
        sw      a0, 0(t0)
        li      a1, 4                   # to write
        jal     stream
        la      t0, output
        sw      a0, 0(t0)
        leave

# stream: opens one of them.
#   takes   a1: the mode
#   leaves  a0: its handle
stream: enter
        addi    sp, sp, -16
        la      t0, console
        sw      t0, 0(sp)
        sw      a1, 4(sp)
        li      t0, 3                   # the name's length
        sw      t0, 8(sp)
        li      a0, SYS_OPEN
        mv      a1, sp
        jal     semihosting
        addi    sp, sp, 16
        leave

# line_put: sends a byte.
#   takes   a0: the byte
line_put:
        enter
        addi    sp, sp, -16
        sw      a0, 12(sp)
        lw      a1, output
        li      a0, SYS_WRITE
        jal     one_byte
        addi    sp, sp, 16
        leave

# line_get: waits for the next byte of the input.
#   leaves  a0: the byte, or -1 at the end
line_get:
        enter
        addi    sp, sp, -16
        lw      a1, input
        li      a0, SYS_READ
        jal     one_byte
        mv      t0, a0
        lbu     a0, 12(sp)
        beqz    t0, 1f
        li      a0, -1
1:      addi    sp, sp, 16
        leave

# one_byte: reads or writes the byte 12 bytes up the stack, below which the arguments stand.
#   takes   a0: the operation; a1: the handle; sp
#   leaves  a0: how many bytes were not read or written
one_byte:
        sw      a1, 0(sp)
        addi    t0, sp, 12
        sw      t0, 4(sp)
        li      t0, 1
        sw      t0, 8(sp)
        mv      a1, sp
        j       semihosting

# machine_end: ends the machine.
#   takes   a0: the status, from 0 to 255
machine_end:
        addi    sp, sp, -16
        li      t0, ENDED
        sw      t0, 0(sp)
        sw      a0, 4(sp)
        li      a0, SYS_EXIT_EXTENDED
        mv      a1, sp
        jal     semihosting
        j       idle

        .section .rodata
console:
        .asciz  ":tt"
        .bss
        .balign 4
input:  .skip   4                       # handles
output: .skip   4
        .text
