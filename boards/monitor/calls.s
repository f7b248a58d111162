# calls.s: the three environment calls, each of one byte, and which bytes the program may have.

# call: an environment call by a7; a number or an argument that no call has is BadCall.
#   takes   s0: registers; s1: the address of the ecall
call:   lw      a7, 68(s0)
        lw      a0, 40(s0)
        lw      a2, 48(s0)
        li      t0, 93
        beq     a7, t0, call_exit
        li      t0, 1                   # one byte
        bne     a2, t0, call_bad
        li      t1, 64
        beq     a7, t1, call_write
        li      t1, 63
        bne     a7, t1, call_bad

# call_read: the next byte of the input to the address in a1. Answers 1, or 0 at the end, with memory as it was.
        bnez    a0, call_bad
        li      a2, WRITE
        jal     byte_of_call
        beqz    a0, no_store
        mv      s2, a0
        jal     line_get
        li      t0, 0
        bltz    a0, call_done
        sb      a0, 0(s2)
        li      t0, 1

# call_done: the program goes on behind the ecall.
#   takes   t0: what it is answered in a0
call_done:
        sw      t0, 40(s0)
        addi    s1, s1, 4
        j       resume

# call_write: the byte at the address in a1 to the output. Answers 1.
call_write:
        bne     a0, t0, call_bad
        li      a2, READ
        jal     byte_of_call
        beqz    a0, no_load
        lbu     a0, 0(a0)
        jal     line_put
        li      t0, 1
        j       call_done

# call_exit: the end, with the low 8 bits of a0.
call_exit:
        andi    a0, a0, 255
        j       machine_end

call_bad:
        li      a0, 8
        j       told
no_load:
        li      a0, 5
        j       told
no_store:
        li      a0, 7
        j       told

# byte_of_call: where the byte lies that a call names in a1.
#   takes   a2: what the program must be allowed
#   leaves  a0: its place in memory, or 0
byte_of_call:
        lw      a0, 44(s0)
        li      a1, 1
        j       found

# fetched: where the instruction at s1 lies, or 0, where its four bytes may not all be executed.
fetched:
        mv      a0, s1
        li      a1, 4
        li      a2, EXECUTE

# found: where bytes of the program lie in memory: exactly, to the byte.
#   takes   a0: their address; a1: how many; a2: a flag that their segment must have
#   leaves  a0: their place, or 0 where they are not all in one such segment
found:  la      t0, segments
        la      t1, segments_end
1:      lw      t2, 8(t0)
        and     t2, t2, a2
        beqz    t2, 2f
        lw      t2, 0(t0)
        bltu    a0, t2, 2f
        lw      t2, 4(t0)
        bgeu    a0, t2, 2f
        sub     t2, t2, a0
        bltu    t2, a1, 2f
        lw      t2, 12(t0)
        add     a0, a0, t2
        ret
2:      addi    t0, t0, SEGMENT
        bltu    t0, t1, 1b
        li      a0, 0
        ret
