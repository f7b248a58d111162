int f(int p[-1]);
int main(void) { return 0; }
