int n;
enum { A = sizeof(n
    = 1) };
int main(void) { return 0; }
