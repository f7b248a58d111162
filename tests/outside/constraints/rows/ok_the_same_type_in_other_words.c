unsigned short x;
int short unsigned x;
short f(long);
signed short int f(int signed long n);
int main(void) { return x; }
