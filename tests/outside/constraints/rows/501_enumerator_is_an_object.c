int n;
enum { A =
    n };
int main(void) { return 0; }
