# serial.s: the serial line (a 16550 UART, asked again and again) and the machine's end (the SiFive test device).

        .equ    UART, 0x10000000        # its data, and the line's status 5 bytes on
        .equ    CAME, 0x01              # a byte came
        .equ    FREE, 0x20              # a byte may be given
        .equ    LEFT, 0x40              # all bytes have left
        .equ    TEST, 0x00100000
        .equ    INPUT, PAYLOAD - 8      # two words: 0 and any; or 1, and how many bytes the input has

# line_begin: sets up the line. qemu's needs nothing: a real one its divisor and 8 bits; no FIFO, which would drop a byte
# that has come.
line_begin:
        ret

# line_put: sends a byte.
#   takes   a0: the byte
line_put:
        li      t0, UART
1:      lbu     t1, 5(t0)
        andi    t1, t1, FREE
        beqz    t1, 1b
        sb      a0, 0(t0)
        ret

# line_get: waits for the next byte of the input. It ends after as many bytes as the second word of INPUT says; or, where
# the first is 0, with a byte 4, as Ctrl-D sends it. The end stays the end.
#   leaves  a0: the byte, or -1 at the end
line_get:
        li      t0, INPUT
        lw      t1, 0(t0)               # t1 = 0 for an input without a count
        lw      t2, 4(t0)
        beqz    t1, 1f
        beqz    t2, 3f
        addi    t2, t2, -1
        sw      t2, 4(t0)
1:      li      t2, UART
2:      lbu     t3, 5(t2)
        andi    t3, t3, CAME
        beqz    t3, 2b
        lbu     a0, 0(t2)
        bnez    t1, 4f
        li      t3, 4
        bne     a0, t3, 4f
        li      t3, 1
        sw      t3, 0(t0)               # from here on: a count,
        sw      zero, 4(t0)             # and no byte left
3:      li      a0, -1
4:      ret

# machine_end: ends the machine, when the last byte has left.
#   takes   a0: the status, from 0 to 255
machine_end:
        li      t0, UART
1:      lbu     t1, 5(t0)
        andi    t1, t1, LEFT
        beqz    t1, 1b
        li      t1, 0x5555              # status 0
        beqz    a0, 2f
        slli    a0, a0, 16
        li      t1, 0x3333              # another, in the upper half
        or      t1, t1, a0
2:      li      t0, TEST
        sw      t1, 0(t0)
        j       idle                    # on a machine without such a device
