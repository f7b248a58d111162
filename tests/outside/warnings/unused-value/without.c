#include <rvio.h>

int main(void) {
    int i = 1, j = 2;
    (void)i;
    i++, j++;
    i < j && rv_getbyte();
    i < j ? rv_putbyte(i) : (void)0;
    for (; j < 5;)
        j++;
    ;
    return i;
}
