int f(int, char [], const long [][2]);
int f(int a, char b[], const long c[][2]) { return a; }
int main(void) { return 0; }
