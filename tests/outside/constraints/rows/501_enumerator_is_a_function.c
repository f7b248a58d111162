int f(void);
enum { A = f };
int main(void) { return 0; }
