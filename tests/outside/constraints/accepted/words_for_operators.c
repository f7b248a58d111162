#include <iso646.h>
int main(void) { int a = 12, b = 10; return ((a bitand b) bitor (a xor 9) and not 0 or 0) + (compl a bitand 15) + (a not_eq b) + (a and_eq 8); }
