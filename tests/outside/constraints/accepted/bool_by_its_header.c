#include <stdbool.h>
bool inverse(bool b) { return b ? false : true; }
int main(void) { return inverse(inverse(true)); }
