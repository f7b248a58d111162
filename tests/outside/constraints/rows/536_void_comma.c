void v(void) { }
int main(void) { return (int)sizeof(1, v()); }
