#include <rvio.h>

int main(void) {
    int a, b, c, d;
    int n = rv_getbyte();
    rv_putbyte(a);
    if (n == 1)
        b = 2;
    rv_putbyte(b);
    while (n > 0) {
        c = n;
        n--;
    }
    rv_putbyte(c);
    switch (n) {
    case 0:
        d = 1;
        break;
    case 1:
        d = 2;
    }
    d += 1;
    return n && (n = d);
}
