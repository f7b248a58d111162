void v(void) { }
int main(void) { return (int)sizeof(v() + 1); }
