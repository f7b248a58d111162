#include <rvio.h>

int main(void) {
    int first[4] = { 0 };
    for (int i = 0; i < 4; i++)
        first[i] = rv_getbyte();
    return (int)((unsigned)first[rv_getbyte() & 3] >> 7 & 1);
}
