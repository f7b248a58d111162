/* Reads a number in decimal, and writes how many steps the Collatz sequence takes from it to 1. */
#include <rvio.h>

static int is_digit(int c) { return c >= '0' && c <= '9'; }

static unsigned read_number(void)
{
    unsigned n = 0;
    int c;
    while (is_digit(c = rv_getbyte()))
        n = n * 10 + (unsigned)(c - '0');
    return n;
}

static void write_number(unsigned n)
{
    if (n >= 10)
        write_number(n / 10);
    rv_putbyte('0' + (int)(n % 10));
}

int main(void)
{
    unsigned steps = 0;
    for (unsigned n = read_number(); n > 1; steps++)
        n = n % 2 == 0 ? n / 2 : 3 * n + 1;
    write_number(steps);
    rv_putbyte('\n');
    return 0;
}
