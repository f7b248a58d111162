#include "one.c"

static int again;
static int again;

int main(void) {
    one();
    return again;
}
