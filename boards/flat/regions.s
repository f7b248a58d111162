# regions.s: memory without page tables: each segment at its own addresses, and three regions of PMP (the privileged
# manual) by which user mode has these bytes alone: text execute only, data and stack read and write.

        .equ    TEXT_BITS, 0x0C         # TOR, execute
        .equ    DATA_BITS, 0x0B         # TOR, read and write

# memory_begin: before the file is read. A core with supervisor mode (misa, bit 18) has traps and addresses to hand over.
memory_begin:
        csrw    pmpcfg0, zero
        csrw    pmpcfg1, zero
        csrr    t0, misa
        slli    t0, t0, 31 - 18
        bgez    t0, 1f
        csrw    medeleg, zero
        csrw    satp, zero
1:      ret

# memory_ready: the file's end is known, in file_end.
memory_ready:
        ret

# memory_take: the memory of a segment, or `bad file` where it is not the program's: from LOWEST to PAYLOAD, or from the
# file's end to MEMORY_END.
#   takes   a0, a1: addresses of the program, from which and below which
#   leaves  a0: the same, all zeros to the end of the last page
memory_take:
        enter
        li      t0, LOWEST
        bltu    a0, t0, bad_file
        li      t0, PAYLOAD
        bleu    a1, t0, 1f
        la      t0, file_end
        lw      t0, 0(t0)
        bltu    a0, t0, bad_file
        li      t0, MEMORY_END
        bgtu    a1, t0, bad_file
1:      addi    a1, a1, -1
        srli    a1, a1, 12
        addi    a1, a1, 1
        slli    a1, a1, 12
        addi    sp, sp, -16
        sw      a0, 0(sp)
        jal     wipe
        lw      a0, 0(sp)
        addi    sp, sp, 16
        leave

# region START, END, CONFIGURATION, SHIFT: where t0 is 0, the region from t1 to t2 (counted in words) with the bits t3: the
# entry of START is off and has that address alone, the entry of END has the bits, SHIFT up in CONFIGURATION.
        .macro  region start, end, configuration, shift
        bnez    t0, 1f
        csrw    \start, t1
        csrw    \end, t2
        slli    t3, t3, \shift
        csrs    \configuration, t3
        ret
1:      addi    t0, t0, -SEGMENT
        .endm

# memory_allow: a region for a segment: of text to the last page's end, where zeros stand; of data and stack to the last
# whole word (a PMP with a coarser grain, up to a page, ends it earlier): `access` does what is allowed behind.
#   takes   a0: its row in the table of segments
memory_allow:
        lw      t1, 0(a0)
        srli    t1, t1, 2
        lw      t2, 4(a0)
        srli    t2, t2, 2
        lw      t0, 8(a0)
        andi    t0, t0, EXECUTE
        bnez    t0, 2f
        li      t3, DATA_BITS
        .ifdef  STRICT
        ret                             # data and stack stay hidden: each access traps
        .endif
        j       3f
2:      li      t3, TEXT_BITS
        addi    t2, t2, (4096 / 4) - 1
        srli    t2, t2, 10
        slli    t2, t2, 10
3:      la      t0, segments
        sub     t0, a0, t0              # which row
        region  pmpaddr0, pmpaddr1, pmpcfg0, 8
        region  pmpaddr2, pmpaddr3, pmpcfg0, 24
        region  pmpaddr4, pmpaddr5, pmpcfg1, 8
        j       bad_file

# memory_end: nothing is left to do: what user mode finds in no region faults.
memory_end:
        ret
