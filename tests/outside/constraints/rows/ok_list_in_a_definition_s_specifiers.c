enum e { A, B } f(void) { return B; }
enum e x = B;
int main(void) { return f() - x; }
