# accesses.s: a load or store that the core did not let through. Misaligned is told first, wherever the bytes lie; then
# LoadFault or StoreFault. One whose bytes the program has is done here: in the last word of data that ends within a
# word, and, where the monitor was built with STRICT, everywhere, since then data and stack are not shown to the core.

# access: does the instruction at s1, or tells its trap.
#   takes   s0: registers; s1: its address
#   leaves  s2 to s6 changed
access: jal     fetched
        beqz    a0, no_fetch
        lw      s2, 0(a0)               # s2 = the instruction
        srai    s3, s2, 20              # a load's offset
        srli    t0, s2, 7
        andi    s4, t0, 31              # its register
        andi    s5, s2, 0x20            # 0 for a load
        li      a2, READ
        beqz    s5, 1f
        andi    s3, s3, -32             # a store's offset ends where a load has its register, and the other way round
        or      s3, s3, s4
        srli    t0, s2, 20
        andi    s4, t0, 31
        li      a2, WRITE
1:      slli    s4, s4, 2
        add     s4, s4, s0              # s4 = the register's place
        srli    t0, s2, 15
        andi    t0, t0, 31
        slli    t0, t0, 2
        add     t0, t0, s0
        lw      a0, 0(t0)
        add     a0, a0, s3              # a0 = the address
        srli    s6, s2, 12
        andi    t0, s6, 3
        li      a1, 1
        sll     a1, a1, t0              # a1 = 1, 2 or 4 bytes
        addi    t0, a1, -1
        and     t0, t0, a0
        bnez    t0, misaligned
        mv      s2, a1
        jal     found
        beqz    s5, load
        beqz    a0, no_store

# The bytes of a store, the lowest first.
        lw      t0, 0(s4)
1:      sb      t0, 0(a0)
        srli    t0, t0, 8
        addi    a0, a0, 1
        addi    s2, s2, -1
        bnez    s2, 1b
        j       accessed

# The bytes of a load, the highest first; then the sign, for which bit 2 of funct3 is 0.
load:   beqz    a0, no_load
        add     a0, a0, s2
        li      t0, 0
        slli    t1, s2, 3
        li      t2, 32
        sub     t2, t2, t1              # t2 = the bits that are not loaded
1:      addi    a0, a0, -1
        lbu     t1, 0(a0)
        slli    t0, t0, 8
        or      t0, t0, t1
        addi    s2, s2, -1
        bnez    s2, 1b
        andi    s6, s6, 4
        bnez    s6, 2f
        sll     t0, t0, t2
        sra     t0, t0, t2
2:      sw      t0, 0(s4)
        sw      zero, 0(s0)             # register 0 stays 0
accessed:
        addi    s1, s1, 4
        j       resume

misaligned:
        li      a0, 4
        j       told
