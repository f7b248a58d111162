int n, m[4];
enum { A = sizeof n + sizeof "abc" + sizeof m[2] + sizeof(m[n]) };
int main(void) { return A - 16; }
