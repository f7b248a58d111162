int main(void) { int a = 1; return (a ? -1 : 0u) > 0; }
