#include "list.h"

static int used(void) { return 1; }
int exported(void) { return 2; }

int main(void) { return used() + list_first(0); }
