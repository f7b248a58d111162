int f(int f) { return f; }
int main(void) { int main = 0; return f(main); }
