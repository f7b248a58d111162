#include <rvio.h>

static int calls;
static int counted(int x) {
    calls++;
    return x;
}
static int clear(int row[], int n) {
    for (int i = 0; i < n; i++)
        row[i] = 0;
    return n;
}
static int square(int x) { return x * x; }

int main(void) {
    int row[2];
    rv_getbyte();
    counted(1);
    clear(row, 2);
    (void)square(3);
    return row[0] + calls;
}
