#include <rvio.h>

int main(void) {
    int i = 1, j = 2;
    i == j;
    i + 1, j++;
    -i;
    for (i; j < 3; j + 1)
        j++;
    i < 2 && j;
    return 0;
}
