static enum { A } f(void) { return A; }
enum { B } const b = B;
int main(void) { return f() + b; }
