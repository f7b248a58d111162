int f(void);
enum { f };
int main(void) { return 0; }
