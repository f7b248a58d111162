enum e { A };
enum e x;
int x;
int f(enum e a);
int f(int a) { return a; }
int main(void) { return f(A); }
