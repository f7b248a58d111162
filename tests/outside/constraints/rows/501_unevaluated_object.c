int n;
enum { A = 0 &&
    n };
int main(void) { return 0; }
