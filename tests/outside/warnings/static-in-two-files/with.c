#include "one.c"
#include "two.c"

int main(void) {
    one();
    two();
    return 0;
}
