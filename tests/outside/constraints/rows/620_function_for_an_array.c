int f(int n[]) { return n[0]; }
int main(void) { return f(f); }
