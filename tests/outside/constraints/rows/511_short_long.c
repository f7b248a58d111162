short long x;
int main(void) { return 0; }
