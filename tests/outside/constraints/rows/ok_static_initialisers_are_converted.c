unsigned char a = 300;
signed char b = 200;
short c = 100000;
int d = 4294967295u;
unsigned e = -1;
_Bool f = 256;
int main(void) { return a != 44 || b != -56 || c != -31072 || d != -1 || e != 4294967295u || f != 1; }
