# start.s: from reset to the program's first instruction. Machine mode, one hart, no interrupts: a serial line is asked
# again and again. Each board names its places in board.s and writes two files of its own: memory and serial line.
#
# A routine takes a0 to a3 and answers in a0. It may change every t and a register, and keeps every s register but those
# that its comment says it leaves.

# enter, leave: the first and the last line of a routine that calls others.
        .macro  enter
        addi    sp, sp, -16
        sw      ra, 0(sp)
        .endm
        .macro  leave
        lw      ra, 0(sp)
        addi    sp, sp, 16
        ret
        .endm

        .text
        .option norelax
        .globl  start
start:  csrw    mie, zero
        csrr    t0, mhartid
        bnez    t0, idle                # one hart is enough
        csrw    mstatus, zero           # MPP: user mode; MXR, MPRV and all else off
        la      sp, registers           # the stack ends where the program's registers begin
        la      t0, fallen
        csrw    mtvec, t0               # a trap of the monitor itself, while it loads
        csrci   misa, 4                 # no compressed instructions, on a core that lets choose
        la      a0, __bss_start
        la      a1, _end
        jal     wipe
        jal     line_begin
        jal     memory_begin
        jal     file_load
        mv      s1, a0                  # s1 = the program's entry
        jal     memory_end
        la      t0, 1f
        csrw    mtvec, t0
        .word   0x0000100F              # fence.i: the text was written; a core without it goes on at 1
        .balign 4
1:      la      t0, trap
        csrw    mtvec, t0
        la      s0, registers           # 32 zeros
        csrw    mscratch, s0
        andi    t0, s1, 3
        beqz    t0, resume
        li      a0, 0                   # such an entry is Target before anything is fetched
        j       told

idle:   wfi
        j       idle

# wipe: zeros.
#   takes   a0, a1: from where, up to where; multiples of 4
wipe:   bgeu    a0, a1, 1f
        sw      zero, 0(a0)
        addi    a0, a0, 4
        j       wipe
1:      ret

        .bss
        .balign 16
        .skip   256                     # the stack
registers:
        .skip   128                     # word n is the program's register xn
segments:
        .skip   SEGMENT * SEGMENTS
segments_end:
        .text
