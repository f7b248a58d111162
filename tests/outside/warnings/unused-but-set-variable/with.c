#include <rvio.h>

int main(void) {
    int set;
    int stepped = 0;
    int row[3];
    set = rv_getbyte();
    stepped++;
    stepped += 2;
    row[1] = 3;
    return 0;
}
