# traps.s: what a trap of the program comes to (the privileged manual, mcause), and how the program goes on.

        .equ    CAUSES, 16              # rows of `causes`

        .balign 4
# trap: every trap comes here. mscratch has the address of `registers`.
#   leaves  s0: registers, with all that the program had; s1: the address of the instruction
trap:   csrrw   sp, mscratch, sp
        .irp    n, 1,3,4,5,6,7,8,9,10,11,12,13,14,15,16,17,18,19,20,21,22,23,24,25,26,27,28,29,30,31
        sw      x\n, 4 * \n (sp)
        .endr
        csrr    t0, mscratch
        sw      t0, 8(sp)
        mv      s0, sp
        csrw    mscratch, s0
        csrr    s1, mepc
        csrr    t0, mstatus
        srli    t0, t0, 11
        andi    t0, t0, 3               # MPP: whose trap it is
        bnez    t0, fallen
        csrr    a0, mcause
        li      t0, CAUSES
        bgeu    a0, t0, unknown
        la      t0, causes
        slli    t1, a0, 2
        add     t0, t0, t1
        lw      t0, 0(t0)
        jr      t0                      # a0 = the cause

# resume: the program goes on.
#   takes   s0: registers; s1: at which address
resume: csrw    mepc, s1
        mv      sp, s0
        .irp    n, 1,3,4,5,6,7,8,9,10,11,12,13,14,15,16,17,18,19,20,21,22,23,24,25,26,27,28,29,30,31
        lw      x\n, 4 * \n (sp)
        .endr
        lw      sp, 8(sp)
        mret

# illegal: behind the end of the text, in its last page, stands 0 too: there it is FetchFault.
illegal:
        jal     fetched
        beqz    a0, no_fetch
        li      a0, 2
        j       told
no_fetch:
        li      a0, 1
        j       told
unknown:
        li      a0, CAUSES

# told: ends with the line of a trap, behind the program's output, and with status 125.
#   takes   a0: the cause; s1: the address
told:   la      t0, names
        slli    a0, a0, 4
        add     s2, t0, a0
        la      a0, trap_text
        jal     line_text
        mv      a0, s2
        jal     line_text
        la      a0, at_text
        jal     line_text
        li      s2, 28                  # the digit is this far up
1:      srl     t0, s1, s2
        andi    t0, t0, 15
        la      a0, digits
        add     a0, a0, t0
        lbu     a0, 0(a0)
        jal     line_put
        addi    s2, s2, -4
        bgez    s2, 1b
        li      a0, '\n'
        jal     line_put
        li      a0, 125
        j       machine_end

# bad_file, fallen: end with a line of their own and status 126: a file in another form or too large for the memory;
# a trap of the monitor itself, which says that the board is not as board.s has it.
bad_file:
        la      a0, bad_file_text
        j       1f
fallen: la      a0, fallen_text
1:      jal     line_text
        li      a0, 126
        j       machine_end

# line_text: sends a text.
#   takes   a0: its address; it ends with a zero byte
line_text:
        enter
        addi    sp, sp, -16
        sw      s3, 0(sp)
        mv      s3, a0
1:      lbu     a0, 0(s3)
        beqz    a0, 2f
        jal     line_put
        addi    s3, s3, 1
        j       1b
2:      lw      s3, 0(sp)
        addi    sp, sp, 16
        leave

        .section .rodata
        .balign 4
# Where each cause of mcause leads, and its name in 16 bytes. 4 and 6: a core that does not do misaligned accesses.
causes: .word   told, told, illegal, told, told, access, told, access
        .word   call, unknown, unknown, unknown, no_fetch, access, unknown, access
names:  .irp    name, Target, FetchFault, Illegal, Break, Misaligned, LoadFault, Misaligned, StoreFault, BadCall
1:      .asciz  "\name"
        .skip   16 - (. - 1b)
        .endr
        .skip   16 * (CAUSES - 9)
        .asciz  "Unknown"
trap_text:
        .asciz  "trap "
at_text:
        .asciz  " at 0x"
digits: .ascii  "0123456789ABCDEF"
bad_file_text:
        .asciz  "bad file\n"
fallen_text:
        .asciz  "monitor trap\n"
        .text
