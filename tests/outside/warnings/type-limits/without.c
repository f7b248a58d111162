#include <rvio.h>

enum { size = 4 };

int main(void) {
    unsigned int u = 3;
    unsigned char c = 4;
    signed char s = 5;
    int n = rv_getbyte();
    if (u > 0)
        n++;
    if (u == -1)
        n++;
    if (c == 255)
        n++;
    if (s >= 0)
        n++;
    if ((n & 15) > 14)
        n++;
    if (size > 3)
        n++;
    if (sizeof u == 4)
        n++;
    if (n == -1)
        n++;
    return n;
}
