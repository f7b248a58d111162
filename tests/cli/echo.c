/* Writes each byte of its input with the case of letters changed. The status
 * is the number of bytes modulo 256. For riscv64-unknown-elf-gcc; registers
 * begin at 0 under `cc run`, so the stack is an array.
 */

static int call(int number, int first, void *second, int third) {
    register int a0 __asm__("a0") = first;
    register void *a1 __asm__("a1") = second;
    register int a2 __asm__("a2") = third;
    register int a7 __asm__("a7") = number;
    __asm__ volatile("ecall" : "+r"(a0) : "r"(a1), "r"(a2), "r"(a7) : "memory");
    return a0;
}

int run(void) {
    unsigned char byte;
    int count = 0;
    while (call(63, 0, &byte, 1) == 1) {
        if ((byte >= 'a' && byte <= 'z') || (byte >= 'A' && byte <= 'Z'))
            byte ^= 32;
        call(64, 1, &byte, 1);
        count++;
    }
    return count % 256;
}

char stack[4096] __attribute__((aligned(16)));
__asm__(".globl _start\n"
        "_start: la sp, stack + 4096\n"
        "    call run\n"
        "    li a7, 93\n"
        "    ecall\n");
