# Two text segments, with so many words between the parts of the first (--defsym between=N). Ends with ((0 + 5) + 1) * 2 + 3.
    .globl _start
_start:
    li   s0, 0
    la   t0, far
    jalr ra, 0(t0)
    addi s0, s0, 1
    la   t0, past
    jalr ra, 0(t0)
    mv   a0, s0
    li   a7, 93
    ecall
    .fill between, 4, 0x13
past:
    slli s0, s0, 1
    addi s0, s0, 3
    ret

    .section .far, "ax"
far:
    addi s0, s0, 5
    ret
