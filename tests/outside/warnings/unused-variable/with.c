#include <rvio.h>

static int never_read;

int main(void) {
    int used = 1;
    int unused = 2;
    int unset;
    rv_putbyte(used);
    return 0;
}
