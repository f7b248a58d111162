#include <rvio.h>

int main(void) {
    int a, b = 0;
    if ((a = rv_getbyte()))
        b++;
    while ((a = rv_getbyte()) != -1)
        b += a;
    if (a == b)
        b = a;
    a += b -= 1;
    return a = b;
}
