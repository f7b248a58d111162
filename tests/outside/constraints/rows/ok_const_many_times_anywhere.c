const int const a = 1;
int const b = 2;
unsigned const long const c = 3;
int main(void) { return (int)(a + b + c) - 6; }
