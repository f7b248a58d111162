#include <rvio.h>

static int sign(int a) {
    if (a < 0)
        return -1;
    else if (a > 0)
        return 1;
}
static int find(int c) {
    while (rv_getbyte() != -1)
        if (c == 'x')
            return 1;
}
static int chosen(int a) {
    switch (a) {
    case 0:
        return 1;
    }
}

int main(void) { return sign(1) + find(2) + chosen(3); }
