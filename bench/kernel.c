/* The measured program: a sieve, a CRC and a product of matrices, repeated.
 *
 * Each round does the same instructions, so the number of instructions is
 * linear in ROUNDS. The status is the low byte of what was computed; nothing
 * is written.
 */

#ifndef ROUNDS
#define ROUNDS 1
#endif

typedef unsigned int word;

enum { SIEVE = 8192, MESSAGE = 4096, SIDE = 24 };

static volatile const word rounds = ROUNDS;

static unsigned char composite[SIEVE];
static unsigned char message[MESSAGE];
static word left[SIDE][SIDE], right[SIDE][SIDE], product[SIDE][SIDE];

static word count_primes(void) {
    word count = 0;
    for (word k = 0; k < SIEVE; k++)
        composite[k] = 0;
    for (word k = 2; k < SIEVE; k++) {
        if (composite[k])
            continue;
        count++;
        for (word multiple = k + k; multiple < SIEVE; multiple += k)
            composite[multiple] = 1;
    }
    return count;
}

static word crc(void) {
    word sum = 0xFFFFFFFF;
    for (word k = 0; k < MESSAGE; k++) {
        sum ^= message[k];
        for (int bit = 0; bit < 8; bit++)
            sum = sum >> 1 ^ (0xEDB88320 & (0 - (sum & 1)));
    }
    return ~sum;
}

static word multiply(void) {
    word trace = 0;
    for (int row = 0; row < SIDE; row++)
        for (int column = 0; column < SIDE; column++) {
            word sum = 0;
            for (int k = 0; k < SIDE; k++)
                sum += left[row][k] * right[k][column];
            product[row][column] = sum;
        }
    for (int k = 0; k < SIDE; k++)
        trace += product[k][k];
    return trace;
}

int run(void) {
    word result = 0;
    for (word k = 0; k < MESSAGE; k++)
        message[k] = (unsigned char)(k * 7 + 3);
    for (int row = 0; row < SIDE; row++)
        for (int column = 0; column < SIDE; column++) {
            left[row][column] = (word)(row * 3 + column);
            right[row][column] = (word)(row + column * 5);
        }
    for (word round = rounds; round > 0; round--)
        result += count_primes() + crc() % 1009 + multiply() % 1013;
    return (int)(result & 255);
}

/* The stack is an array, since registers begin at 0 under `cc run`. */
char stack[4096] __attribute__((aligned(16)));
__asm__(".globl _start\n"
        "_start: la sp, stack + 4096\n"
        "    call run\n"
        "    li a7, 93\n"
        "    ecall\n");
