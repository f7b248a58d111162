int f(const int a) { return sizeof(a = 1); }
int main(void) { return 0; }
