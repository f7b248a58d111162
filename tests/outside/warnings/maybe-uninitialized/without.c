#include <rvio.h>

int main(void) {
    int a, b, c, d, e, f;
    int row[3];
    int n = rv_getbyte();
    if (n == 1)
        a = 2;
    else
        a = 3;
    while (1) {
        b = rv_getbyte();
        if (b == -1)
            break;
    }
    switch (n) {
    case 0:
        c = 1;
        break;
    default:
        c = 2;
        break;
    case 3:
        return 1;
    }
    if (n == 4 && (d = rv_getbyte()) != -1)
        rv_putbyte(d);
    if (n == 5)
        e = 1;
    else
        rv_exit(2);
    do
        f = rv_getbyte();
    while (f == 'x');
    row[0] = 1;
    for (int i; n < 3; n++) {
        i = n;
        row[1] = i;
    }
    return a + b + c + e + f + row[0] + row[1];
}
