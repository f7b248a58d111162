#include <rvio.h>

int main(void) {
    int a = rv_getbyte();
    switch (a) {
    case 0:
    case 1:
        a = 2;
        break;
    case 2:
        a = 3;
        /* falls through */
    case 3:
        a = 4; // fallthrough
    case 4:
        if (a == 5)
            break;
        else
            return 1;
    case 5:
        for (;;)
            if (rv_getbyte() == 'x')
                return 2;
    case 6:
        ;
    case 7:
        rv_exit(3);
    case 8: {
        a = 9;
        break;
    }
    case 9:
        a = 10;
    default:
        break;
    }
    return a;
}
