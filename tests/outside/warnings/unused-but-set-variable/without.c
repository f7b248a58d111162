#include <rvio.h>

int main(void) {
    int set;
    int stepped = 0;
    int row[3];
    set = rv_getbyte();
    row[1] = stepped++;
    rv_putbyte(row[1]);
    int last;
    while ((last = rv_getbyte()) > 0)
        rv_putbyte(1);
    return set;
}
