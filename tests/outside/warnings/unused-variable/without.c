#include <rvio.h>

static int counted;

int main(void) {
    int used = 1;
    int only_measured[4];
    int kept = 0;
    counted++;
    (void)kept;
    rv_putbyte(used + (int)sizeof only_measured + counted);
    return 0;
}
