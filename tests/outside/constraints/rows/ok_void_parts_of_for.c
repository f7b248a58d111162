void v(void) { }
int main(void) { int i = 0; for (v(); i < 1; v()) i++; return i - 1; }
