void v(void) { }
int main(void) { if (v()) return 1; else return 0; }
