# Executes every row of RV32I and of the M extension that only computes, or
# loads, stores, branches and jumps, over edge operands, and writes each
# result as four bytes, lowest first. check.sh compares the bytes under
# `cc run` with those under qemu-riscv32.

        .option norelax
        .option norvc
        .globl  _start

# The four bytes of a0 to the output.
        .text
put:    la      t0, word
        sw      a0, 0(t0)
        addi    t1, t0, 4
        li      a7, 64
        li      a2, 1
1:      li      a0, 1
        mv      a1, t0
        ecall
        addi    t0, t0, 1
        bltu    t0, t1, 1b
        ret

# BODY with the operands in s4 and s5, the result in a0, for each two operands.
        .macro  each_two body:vararg
        la      s2, operands
1:      la      s3, operands
2:      lw      s4, 0(s2)
        lw      s5, 0(s3)
        \body
        call    put
        addi    s3, s3, 4
        la      t0, operands_end
        bne     s3, t0, 2b
        addi    s2, s2, 4
        bne     s2, t0, 1b
        .endm

# BODY with the operand in s4, the result in a0, for each operand.
        .macro  each_one body:vararg
        la      s2, operands
1:      lw      s4, 0(s2)
        \body
        call    put
        addi    s2, s2, 4
        la      t0, operands_end
        bne     s2, t0, 1b
        .endm

        .macro  branch row
        li      a0, 1
        \row    s4, s5, 3f
        li      a0, 0
3:
        .endm

        .macro  memory store, load, offset
        la      t0, room
        sw      s4, 0(t0)
        sw      s4, 4(t0)
        \store  s5, \offset(t0)
        \load   a0, \offset(t0)
        call    put
        la      t0, room
        lw      a0, 0(t0)
        call    put
        la      t0, room
        lw      a0, 4(t0)
        .endm

_start:
        .irp    row, add, sub, sll, slt, sltu, xor, srl, sra, or, and
        each_two \row a0, s4, s5
        .endr
        .irp    row, mul, mulh, mulhsu, mulhu, div, divu, rem, remu
        each_two \row a0, s4, s5
        .endr
        .irp    row, beq, bne, blt, bge, bltu, bgeu
        each_two branch \row
        .endr
        .irp    row, addi, slti, sltiu, xori, ori, andi
        .irp    number, 0, 1, -1, 5, 255, 2047, -2048
        each_one \row a0, s4, \number
        .endr
        .endr
        .irp    row, slli, srli, srai
        .irp    number, 0, 1, 7, 16, 31
        each_one \row a0, s4, \number
        .endr
        .endr
        .irp    offset, 0, 1, 2, 3, 4, 5, 6, 7
        each_two memory sb, lb, \offset
        each_two memory sb, lbu, \offset
        .endr
        .irp    offset, 0, 2, 4, 6
        each_two memory sh, lh, \offset
        each_two memory sh, lhu, \offset
        .endr
        each_two memory sw, lw, 0
        each_two memory sw, lw, 4

        # x0 stays 0; lui, auipc, jal, jalr and their links, fence.
        li      t0, 7
        add     zero, t0, t0
        mv      a0, zero
        call    put
        lui     a0, 0xFFFFF
        call    put
        auipc   a0, 0x7FFFF
        call    put
        jal     a0, 1f
        li      a0, 0
1:      call    put
        la      t0, 1f + 1      # the lowest bit is dropped
        jalr    a0, 0(t0)
        li      a0, 0
1:      call    put
        la      t0, 1f - 8
        jalr    t0, 8(t0)       # the target is read before the link is written
        li      t0, 0
1:      mv      a0, t0
        call    put
        fence
        fence   rw, w

        li      a0, 48
        li      a7, 93
        ecall

        .data
        .balign 4
operands:
        .word   0, 1, 2, 7, 31, 32, 0x7FF, 0x800, 0x7FFF8000
        .word   0x7FFFFFFF, 0x80000000, 0x80000001, 0xFFFFF800, 0xFFFFFFFE
        .word   0xFFFFFFFF, 0x89ABCDEF
operands_end:
room:   .word   0, 0
word:   .word   0
