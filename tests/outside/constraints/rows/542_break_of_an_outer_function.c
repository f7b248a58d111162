int f(void) { break; return 0; }
int main(void) { while (1) return f(); }
