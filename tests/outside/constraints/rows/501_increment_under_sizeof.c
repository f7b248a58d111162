int n;
enum { A = sizeof(n++) };
int main(void) { return 0; }
