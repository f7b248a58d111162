#include <rvio.h>

int main(void) {
    unsigned int u = 3;
    unsigned char c = 4;
    signed char s = 5;
    int n = 0;
    if (u >= 0)
        n++;
    if (u < 0)
        n++;
    if (c == -1)
        n++;
    if (c < 256)
        n++;
    if (s != 200)
        n++;
    if ((n & 15) > 15)
        n++;
    if (0 <= c)
        n++;
    return n;
}
