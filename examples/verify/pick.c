#include <rvio.h>

int main(void) {
    int first[4];
    for (int i = 0; i < 4; i++)
        first[i] = rv_getbyte();
    return first[rv_getbyte() % 4] << 24;
}
