int f(int p[]) { do return 0; while (p); }
int main(void) { return 0; }
