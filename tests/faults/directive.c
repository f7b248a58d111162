/* 2: 232 include file not found */ int main(void) { return 0; }
#include <math.h>
