#include <rvio.h>

int main(void) {
    char text[] = "hello\n";
    for (int i = 0; text[i] != '\0'; i++)
        rv_putbyte(text[i]);
    return 0;
}
