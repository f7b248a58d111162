#include <rvio.h>

static int sign(int a) {
    if (a < 0)
        return -1;
    else
        return 1;
}
static int wait(int c) {
    while (1)
        if (rv_getbyte() == c)
            return 1;
}
static int chosen(int a) {
    switch (a) {
    case 0:
        return 1;
    default:
        rv_exit(2);
    }
}
static int once(int a) {
    do {
        return a;
    } while (0);
}
enum { FOREVER = 1 };
static int first(int c) {
    while (FOREVER)
        if (rv_getbyte() == c)
            return 1;
}
static int second(int c) {
    while (!0)
        if (rv_getbyte() == c)
            return 2;
}
static int third(int c) {
    for (; 1 + 1 == 2 && (_Bool)1; )
        if (rv_getbyte() == c)
            return 3;
}
static int fourth(int c) {
    do {
        if (rv_getbyte() == c)
            return 4;
    } while (sizeof(int) == 4);
}
static int greater(int n) {
    if (2 > FOREVER)
        return n;
}
static void nothing(void) { }

int main(void) {
    nothing();
    rv_putbyte(sign(1) + wait(2) + chosen(3) + once(4) + first(5) + second(6) + third(7) + fourth(8) + greater(9));
}
