void v(void) { }
int main(void) { return v() && 1; }
