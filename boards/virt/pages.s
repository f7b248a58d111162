# pages.s: memory by page tables (the privileged manual: Sv32) and, for the last page of data, by PMP. A page is mapped
# for user mode alone: text execute only, data and stack read and write. What is not mapped faults.

        .equ    PAGE, 4096
        .equ    TEXT_BITS, 0x59         # A, U, X, V
        .equ    DATA_BITS, 0xD7         # D, A, U, W, R, V

# memory_begin: before the file is read.
memory_begin:
        csrw    satp, zero
        csrw    medeleg, zero           # every trap comes to the monitor
        csrw    pmpcfg0, zero
        ret

# memory_ready: the file's end is known, in file_end.
memory_ready:
        enter
        la      t0, lowest
        li      t1, MEMORY_END
        sw      t1, 0(t0)
        li      a0, 0
        li      a1, PAGE
        jal     memory_take
        la      t0, root
        sw      a0, 0(t0)
        leave

# memory_take: takes pages for a segment, from the memory's end downwards, or ends with `bad file`.
#   takes   a0, a1: addresses of the program, from which and below which
#   leaves  a0: the memory, all zeros; a2 to a4 kept
memory_take:
        enter
        sub     a0, a1, a0
        la      t0, lowest
        lw      a1, 0(t0)
        sub     t1, a1, a0
        bgtu    t1, a1, bad_file        # below address 0
        li      t2, -PAGE
        and     a0, t1, t2
        la      t2, file_end
        lw      t2, 0(t2)
        bltu    a0, t2, bad_file        # over the file
        sw      a0, 0(t0)
        addi    sp, sp, -16
        sw      a0, 0(sp)
        jal     wipe
        lw      a0, 0(sp)
        addi    sp, sp, 16
        leave

# memory_allow: maps the pages of a segment.
#   takes   a0: its row in the table of segments
memory_allow:
        enter
        lw      a1, 0(a0)               # a1 = a page of the program
        lw      a2, 4(a0)               # a2 = the segment's end
        lw      a3, 12(a0)
        lw      t0, 8(a0)
        li      a4, TEXT_BITS
        andi    t0, t0, EXECUTE
        bnez    t0, 1f
        .ifdef  STRICT
        leave                           # data and stack stay hidden: each access traps
        .endif
        jal     last_page
        li      a4, DATA_BITS
1:      jal     page_entry
        add     t0, a1, a3
        srli    t0, t0, 2
        or      t0, t0, a4
        sw      t0, 0(a0)
        li      t0, PAGE
        add     a1, a1, t0
        bltu    a1, a2, 1b
        leave

# page_entry: the entry of a page in the second table, which it takes where there is none.
#   takes   a1: the page
#   leaves  a0: the entry's place; a1 to a4 kept
page_entry:
        enter
        srli    t0, a1, 22
        slli    t0, t0, 2
        la      t1, root
        lw      t1, 0(t1)
        add     t1, t1, t0
        lw      t0, 0(t1)
        bnez    t0, 1f
        addi    sp, sp, -16
        sw      t1, 0(sp)
        sw      a1, 4(sp)
        li      a0, 0
        li      a1, PAGE
        jal     memory_take
        lw      t1, 0(sp)
        lw      a1, 4(sp)
        addi    sp, sp, 16
        srli    t0, a0, 2
        ori     t0, t0, 1               # V: a pointer to the second table
        sw      t0, 0(t1)
1:      srli    t0, t0, 10
        slli    t0, t0, 12
        slli    a0, a1, 10
        srli    a0, a0, 22
        slli    a0, a0, 2
        add     a0, a0, t0
        leave

# last_page: where data ends within a page, PMP entry 1 forbids user mode the rest of the page, from the last whole word
# on. There is one such entry, so a second such segment ends with `bad file`: the stack of `cc build` is whole pages.
#   takes   a2: the segment's end; a3: how far from there its memory lies
last_page:
        slli    t0, a2, 20
        beqz    t0, 1f
        csrr    t0, pmpcfg0
        bnez    t0, bad_file
        add     t0, a2, a3
        srli    t0, t0, 2
        csrw    pmpaddr0, t0
        ori     t0, t0, (PAGE / 4) - 1
        addi    t0, t0, 1
        csrw    pmpaddr1, t0
        li      t0, 0x0800              # entry 1: TOR, without rights
        csrw    pmpcfg0, t0
1:      ret

# memory_end: PMP entry 2 leaves all else to the page tables, which are switched on for user mode.
memory_end:
        li      t0, -1
        csrw    pmpaddr2, t0
        li      t0, 0x001F0000          # entry 2: NAPOT, read, write, execute
        csrs    pmpcfg0, t0
        la      t0, root
        lw      t0, 0(t0)
        srli    t0, t0, 12
        li      t1, 0x80000000          # Sv32
        or      t0, t0, t1
        csrw    satp, t0
        sfence.vma
        ret

        .bss
        .balign 4
lowest: .skip   4                       # the lowest page taken
root:   .skip   4                       # the first page table
        .text
