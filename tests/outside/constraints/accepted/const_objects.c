const int a = 1;
int main(void) { const int b = 2; int const c = 3; return a + b + c; }
