/* The kernels of flat.txt in C: KERNEL says which. The status is the low byte of what is computed. */
typedef unsigned int word;

#define APART __attribute__((noinline))

#if KERNEL == 1
static unsigned char composite[8192];
int main(void) {
    word count = 0;
    for (word k = 2; k < 8192; k++) {
        if (composite[k]) continue;
        count++;
        for (word multiple = k + k; multiple < 8192; multiple += k) composite[multiple] = 1;
    }
    return count;
}
#elif KERNEL == 2
int main(void) {
    word crc = -1u;
    for (word k = 0; k < 1024; k++) {
        crc ^= (unsigned char)(k * 7);
        for (word bit = 8; bit != 0; bit--) {
            word low = crc & 1;
            crc >>= 1;
            if (low) crc ^= 0xEDB88320u;
        }
    }
    return crc ^ -1u;
}
#elif KERNEL == 3
int main(void) {
    word left[256], right[256], product[256], sum = 0;
    for (word k = 0; k < 256; k++) {
        left[k] = k * 3 + 1;
        right[k] = k ^ 5;
    }
    for (word i = 0; i < 16; i++)
        for (word j = 0; j < 16; j++) {
            word value = 0;
            for (word k = 0; k < 16; k++) value += left[i * 16 + k] * right[k * 16 + j];
            product[i * 16 + j] = value;
            sum += value;
        }
    __asm__ volatile("" : : "r"(product) : "memory");
    return sum;
}
#elif KERNEL == 4
static word list[200];
int main(void) {
    word seed = 1;
    for (word k = 0; k < 200; k++) {
        seed = seed * 1103515245u + 12345u;
        list[k] = seed >> 16;
    }
    for (word k = 1; k < 200; k++) {
        word value = list[k], at = k;
        while (at != 0 && value < list[at - 1]) {
            list[at] = list[at - 1];
            at--;
        }
        list[at] = value;
    }
    return list[100];
}
#elif KERNEL == 5
static APART int fibonacci(int n) { return n < 2 ? n : fibonacci(n - 1) + fibonacci(n - 2); }
int main(void) { return fibonacci(20); }
#else
static APART word divisor(word a, word b) {
    while (b != 0) {
        word rest = a % b;
        a = b;
        b = rest;
    }
    return a;
}
int main(void) {
    word sum = 0;
    for (word k = 1; k < 201; k++) sum += divisor(k * 7, 1000);
    return sum;
}
#endif

char stack[65536] __attribute__((aligned(16)));

__asm__(".text\n.globl _start\n.option push\n.option norelax\n_start: la sp, stack + 65536\n call main\n li a7, 93\n ecall\n.option pop\n");
