/* Byte loads and stores: copies, reverses and sums 8,192 bytes, ROUNDS times. Ends with the low bits of the sum. */
#ifndef ROUNDS
#define ROUNDS 1000
#endif

static unsigned char from[8192], to[8192];

static unsigned round_of(unsigned seed) {
    unsigned sum = 0;
    for (int k = 0; k < 8192; k++)
        from[k] = (unsigned char)(seed + k);
    for (int k = 0; k < 8192; k++)
        to[8191 - k] = from[k];
    for (int k = 0; k < 8192; k++)
        sum += to[k] * (k & 7);
    return sum;
}

void _start(void) {
    unsigned sum = 0, rounds = ROUNDS;
    /* The same code for every number of rounds. */
    __asm__("" : "+r"(rounds));
    for (unsigned k = 0; k < rounds; k++)
        sum += round_of(k);
    register unsigned a0 __asm__("a0") = sum & 127;
    register unsigned a7 __asm__("a7") = 93;
    __asm__ volatile("ecall" : : "r"(a0), "r"(a7));
    for (;;)
        ;
}
