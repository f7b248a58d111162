char a; signed char b; char signed c; unsigned char d; char unsigned e;
short f; signed short g; short int h; int short i; signed int short j; short signed k;
unsigned short l; unsigned int short m; short unsigned n; int unsigned short o;
int p; signed q; int signed r; unsigned s; int unsigned t;
long u; signed long v; long int w; int long x; int signed long y; long signed z;
unsigned long aa; unsigned int long bb; long unsigned cc; int unsigned long dd; _Bool ee;
int main(void) { return a + b + c + d + e + f + g + h + i + j + k + p + q + r + ee; }
