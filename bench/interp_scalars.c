/* Scalars and control flow, for bench/interp.sh: TURNS turns of a generator of numbers. */

#ifndef TURNS
#define TURNS 1000000u
#endif

int main(void)
{
    unsigned i, x = 1;
    for (i = 0; i < TURNS; i++) {
        x = x * 1664525u + 1013904223u;
        if (x & 1u)
            x = x ^ i;
    }
    return (int)(x & 127u);
}
