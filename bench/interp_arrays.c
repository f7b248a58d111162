/* An array, for bench/interp.sh: its 256 elements are summed TURNS times. */

#ifndef TURNS
#define TURNS 20000
#endif

int main(void)
{
    int a[256];
    int i, j, s = 0;
    for (i = 0; i < 256; i++)
        a[i] = i;
    for (j = 0; j < TURNS; j++) {
        s = 0;
        for (i = 0; i < 256; i++)
            s = s + a[i];
    }
    return s & 127;
}
