#include <rvio.h>

int main(void) {
    int a = rv_getbyte();
    if (a == 1);
        a++;
    if (a == 2)
        a++;
    else;
    while (rv_getbyte() != -1);
    {
        a++;
    }
    for (; a < 3; a++);
    {
        a++;
    }
    return a;
}
