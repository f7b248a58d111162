#include <rvio.h>

int main(void) {
    int a = 1, b = 0;
    if (a = 2)
        b++;
    while (a = b)
        b--;
    for (; b = a;)
        break;
    do
        b++;
    while (b = 0);
    a = (b == 1) ? 1 : !(b) && (a == 1);
    return a = b ? 1 : 0;
}
