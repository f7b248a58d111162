# file.s: reads the ELF file at PAYLOAD as its program headers say (the gABI, chapter 5), and lays out its segments.
#
# It takes files in the form of `cc build`: up to three segments, which begin at multiples of 4096 and share no page;
# their flags are 1 (text) or 6 (data, stack). Their number, addresses and sizes are the headers' own.

        .equ    EXECUTE, 1
        .equ    WRITE, 2
        .equ    READ, 4
        .equ    SEGMENTS, 3
# A row of the segments' table, 4 words: addresses from and below which, flags, and how far from its address it lies.
        .equ    SEGMENT, 16

# need LOAD, AT, VALUE: the file is refused unless its field at AT has this value.
        .macro  need load, at, value
        \load   t0, \at (s3)
        li      t1, \value
        bne     t0, t1, bad_file
        .endm

# file_load: lays out every segment, or ends with `bad file`.
#   takes   the table of segments, all zeros
#   leaves  a0: the entry; the table; s3 to s8 changed
file_load:
        enter
        li      s3, PAYLOAD
        need    lw, 0, 0x464C457F       # "\x7fELF"
        need    lw, 4, 0x00010101       # 32 bits, little endian, version 1
        need    lw, 16, 0x00F30002      # an executable for RISC-V
        need    lw, 36, 0               # no flags: no compressed instructions, no floating point
        need    lhu, 42, 32             # the size of a header
        la      a0, file_past
        jal     each_header
        jal     memory_ready            # the file's end is known, and pages may be taken
        la      a0, segment_load
        jal     each_header
        lw      a0, 24(s3)
        leave

# each_header: calls a routine for each PT_LOAD header of a segment with memory.
#   takes   a0: the routine, which finds the header in s4; s3: the file
#   leaves  s4, s5, s6 changed
each_header:
        enter
        mv      s6, a0
        lw      s4, 28(s3)
        andi    t0, s4, 3
        bnez    t0, bad_file
        add     s4, s4, s3
        lhu     s5, 44(s3)              # s5 = how many are left
1:      beqz    s5, 2f
        lw      t0, 0(s4)
        li      t1, 1                   # PT_LOAD
        bne     t0, t1, 3f
        lw      t0, 20(s4)
        beqz    t0, 3f
        jalr    s6
3:      addi    s4, s4, 32
        addi    s5, s5, -1
        j       1b
2:      leave

# file_past: raises file_end to the end of this header's bytes in the file.
#   takes   s3: the file; s4: the header
file_past:
        lw      t0, 4(s4)               # p_offset
        lw      t1, 16(s4)              # p_filesz
        add     t1, t0, t1
        bltu    t1, t0, bad_file
        add     t0, t1, s3
        bltu    t0, t1, bad_file
        la      t1, file_end
        lw      t2, 0(t1)
        bgeu    t2, t0, 1f
        sw      t0, 0(t1)
1:      ret

# segment_load: takes memory for one segment, copies its bytes there, and lets the program have it.
#   takes   s3: the file; s4: the header
#   leaves  a row more in the table; s7 (the row) and s8 (its memory) changed
segment_load:
        enter
        jal     segment_row
        lw      a0, 0(s7)
        lw      a1, 4(s7)
        jal     memory_take
        mv      s8, a0
        lw      t0, 0(s7)
        sub     t0, s8, t0
        sw      t0, 12(s7)
        lw      a0, 4(s4)
        add     a0, a0, s3
        mv      a1, s8
        lw      a2, 16(s4)
        lw      t0, 8(s7)
        li      t1, EXECUTE
        beq     t0, t1, 1f
        jal     bytes_copy
        j       2f
1:      jal     text_copy
2:      mv      a0, s7
        jal     memory_allow
        leave

# segment_row: puts a header's segment into the table, or ends with `bad file`.
#   takes   s4: the header
#   leaves  s7: its row
segment_row:
        lw      t0, 8(s4)               # p_vaddr, a multiple of 4096
        slli    t1, t0, 20
        bnez    t1, bad_file
        lw      t1, 20(s4)              # p_memsz: it ends within 32 bits
        add     t2, t0, t1
        bltu    t2, t0, bad_file
        lw      t3, 16(s4)              # p_filesz, no larger
        bltu    t1, t3, bad_file
        lw      t3, 24(s4)              # p_flags
        li      t4, EXECUTE
        beq     t3, t4, 1f
        li      t4, READ | WRITE
        bne     t3, t4, bad_file
1:      la      s7, segments
        la      t4, segments_end
        addi    a0, t2, -1
        srli    a0, a0, 12              # a0 = its last page
        srli    a1, t0, 12              # a1 = its first page
2:      bgeu    s7, t4, bad_file        # one more than SEGMENTS
        lw      t5, 4(s7)
        beqz    t5, 3f                  # a free row
        addi    t5, t5, -1
        srli    t5, t5, 12
        lw      t6, 0(s7)
        srli    t6, t6, 12
        addi    s7, s7, SEGMENT
        bltu    t5, a1, 2b
        bltu    a0, t6, 2b
        j       bad_file                # two segments in one page
3:      sw      t0, 0(s7)
        sw      t2, 4(s7)
        sw      t3, 8(s7)
        ret

# The first address behind what the headers name of the file.
        .bss
        .balign 4
file_end:
        .skip   4
        .text
