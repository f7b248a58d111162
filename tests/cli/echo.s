# Made from echo.c by riscv64-unknown-elf-gcc (12.2.0) -O1 -march=rv32im -mabi=ilp32 -S, so that the check needs no
# cross compiler.
	.option nopic
	.attribute arch, "rv32i2p1_m2p0"
	.attribute unaligned_access, 0
	.attribute stack_align, 16
	.text
 #APP
	.globl _start
_start: la sp, stack + 4096
    call run
    li a7, 93
    ecall

 #NO_APP
	.align	2
	.globl	run
	.type	run, @function
run:
	addi	sp,sp,-16
	li	a0,0
	addi	a1,sp,15
	li	a2,1
	li	a7,63
 #APP
# 11 "tests/cli/echo.c" 1
	ecall
# 0 "" 2
 #NO_APP
	li	a5,1
	bne	a0,a5,.L5
	li	a3,0
	li	a6,25
	j	.L4
.L8:
	xori	a4,a4,32
	sb	a4,15(sp)
.L3:
	li	a0,1
	addi	a1,sp,15
	li	a2,1
	li	a7,64
 #APP
# 11 "tests/cli/echo.c" 1
	ecall
# 0 "" 2
 #NO_APP
	addi	a3,a3,1
	li	a0,0
	li	a7,63
 #APP
# 11 "tests/cli/echo.c" 1
	ecall
# 0 "" 2
 #NO_APP
	li	a5,1
	bne	a0,a5,.L2
.L4:
	lbu	a4,15(sp)
	andi	a5,a4,-33
	addi	a5,a5,-65
	andi	a5,a5,0xff
	bgtu	a5,a6,.L3
	j	.L8
.L5:
	li	a3,0
.L2:
	srai	a0,a3,31
	srli	a0,a0,24
	add	a3,a3,a0
	andi	a3,a3,255
	sub	a0,a3,a0
	addi	sp,sp,16
	jr	ra
	.size	run, .-run
	.globl	stack
	.bss
	.align	4
	.type	stack, @object
	.size	stack, 4096
stack:
	.zero	4096
