int static a = 1;
const int extern b;
int const b = 2;
int main(void) { return a + b; }
