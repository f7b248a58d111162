#define TWICE(x) (2 * x)
#define SUM(a, b) (a) + (b)
#define SIZE 4 + 1
#define HALF(n) ((n) / 2 - n)
#define WIDE(x) ((unsigned)x)
#define NOT(x) (!x)

int main(void) { return TWICE(1) + SUM(2, 3) + SIZE + HALF(4) + (int)WIDE(5) + NOT(6); }
