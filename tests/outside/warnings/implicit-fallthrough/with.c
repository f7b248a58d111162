#include <rvio.h>

int main(void) {
    int a = rv_getbyte();
    switch (a) {
    case 1:
        a = 2;
    case 2:
        if (a == 3)
            break;
    default:
        a = 4;
        while (a)
            a--;
    case 7:
        a = 8;
    }
    return a;
}
