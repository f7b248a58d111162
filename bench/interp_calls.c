/* Calls: recursion, and a loop that calls a function with a loop. */
static unsigned table[64];

static unsigned mixed(unsigned x)
{
    unsigned k;

    for (k = 0; k < 8u; k++)
        table[(x + k) & 63u] += x ^ k;
    return table[x & 63u];
}

static int fibonacci(int n)
{
    if (n < 2)
        return n;
    return fibonacci(n - 1) + fibonacci(n - 2);
}

int main(void)
{
    unsigned sum = 0;
    unsigned i;

    for (i = 0; i < 20000u; i++)
        sum += mixed(i);
    return (int)((sum + (unsigned)fibonacci(22)) & 127u);
}
