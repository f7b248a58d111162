# words.s: the 48 instructions of RV32IM (the unprivileged ISA manual, its table of opcodes), and how bytes are copied.

# bytes_copy: copies bytes.
#   takes   a0: from where; a1: to where; a2: how many
bytes_copy:
        beqz    a2, 1f
        lbu     t0, 0(a0)
        sb      t0, 0(a1)
        addi    a0, a0, 1
        addi    a1, a1, 1
        addi    a2, a2, -1
        j       bytes_copy
1:      ret

# text_copy: copies the whole words of a text. A word in no row becomes 0, which no machine executes: so a program can't
# use what else the core has (compressed words, atomics, counters, wfi). It can't read its text, so it can't see this.
#   takes   a0: from where, a multiple of 4; a1: to where, zeros; a2: how many bytes
text_copy:
        andi    t0, a0, 3
        bnez    t0, bad_file
1:      addi    a2, a2, -4
        bltz    a2, 4f
        lw      t0, 0(a0)
        la      t1, rows
        la      t2, rows_end
2:      lw      t3, 0(t1)
        and     t3, t3, t0
        lw      t4, 4(t1)
        beq     t3, t4, 3f
        addi    t1, t1, 8
        bltu    t1, t2, 2b
        li      t0, 0
3:      sw      t0, 0(a1)
        addi    a0, a0, 4
        addi    a1, a1, 4
        j       1b
4:      ret

# row NAME, BITS, VALUE: a word is this instruction where its BITS are VALUE.
        .macro  row name, bits, value
        .word   \bits, \value
        .endm

        .section .rodata
        .balign 4
rows:   row     addi,   0x0000707F, 0x00000013
        row     lw,     0x0000707F, 0x00002003
        row     sw,     0x0000707F, 0x00002023
        row     lui,    0x0000007F, 0x00000037
        row     auipc,  0x0000007F, 0x00000017
        row     jal,    0x0000007F, 0x0000006F
        row     jalr,   0x0000707F, 0x00000067
        row     beq,    0x0000707F, 0x00000063
        row     bne,    0x0000707F, 0x00001063
        row     blt,    0x0000707F, 0x00004063
        row     bge,    0x0000707F, 0x00005063
        row     bltu,   0x0000707F, 0x00006063
        row     bgeu,   0x0000707F, 0x00007063
        row     lb,     0x0000707F, 0x00000003
        row     lh,     0x0000707F, 0x00001003
        row     lbu,    0x0000707F, 0x00004003
        row     lhu,    0x0000707F, 0x00005003
        row     sb,     0x0000707F, 0x00000023
        row     sh,     0x0000707F, 0x00001023
        row     slti,   0x0000707F, 0x00002013
        row     sltiu,  0x0000707F, 0x00003013
        row     xori,   0x0000707F, 0x00004013
        row     ori,    0x0000707F, 0x00006013
        row     andi,   0x0000707F, 0x00007013
        row     slli,   0xFE00707F, 0x00001013
        row     srli,   0xFE00707F, 0x00005013
        row     srai,   0xFE00707F, 0x40005013
        row     add,    0xFE00707F, 0x00000033
        row     sub,    0xFE00707F, 0x40000033
        row     sll,    0xFE00707F, 0x00001033
        row     slt,    0xFE00707F, 0x00002033
        row     sltu,   0xFE00707F, 0x00003033
        row     xor,    0xFE00707F, 0x00004033
        row     srl,    0xFE00707F, 0x00005033
        row     sra,    0xFE00707F, 0x40005033
        row     or,     0xFE00707F, 0x00006033
        row     and,    0xFE00707F, 0x00007033
        row     mul,    0xFE00707F, 0x02000033
        row     mulh,   0xFE00707F, 0x02001033
        row     mulhsu, 0xFE00707F, 0x02002033
        row     mulhu,  0xFE00707F, 0x02003033
        row     div,    0xFE00707F, 0x02004033
        row     divu,   0xFE00707F, 0x02005033
        row     rem,    0xFE00707F, 0x02006033
        row     remu,   0xFE00707F, 0x02007033
        row     fence,  0x0000707F, 0x0000000F
        row     ecall,  0xFFFFFFFF, 0x00000073
        row     ebreak, 0xFFFFFFFF, 0x00100073
rows_end:
        .text
