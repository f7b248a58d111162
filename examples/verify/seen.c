#include <rvio.h>

static int seen[10];

int main(void) {
    int n = 0;
    for (int c = rv_getbyte(); c != -1; c = rv_getbyte())
        seen[n++] = c;
    return seen[0] / n;
}
