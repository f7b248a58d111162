int f(int a);
int f(const int a);
int f(int const b) { return b; }
int main(void) { return f(0); }
