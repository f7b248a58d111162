/* A switch of ten cases, for bench/interp.sh: how many segments of a display light for the digits of the numbers below TURNS. */

#ifndef TURNS
#define TURNS 50000u
#endif

int main(void)
{
    unsigned i, n, lit = 0;
    for (i = 0; i < TURNS; i++)
        for (n = i; n != 0; n = n / 10)
            switch (n % 10) {
            case 0: lit += 6; break;
            case 1: lit += 2; break;
            case 2: lit += 5; break;
            case 3: lit += 5; break;
            case 4: lit += 4; break;
            case 5: lit += 5; break;
            case 6: lit += 6; break;
            case 7: lit += 3; break;
            case 8: lit += 7; break;
            default: lit += 6;
            }
    return (int)(lit & 127u);
}
