enum e { A };
int f(int a[]) { return a[0]; }
int main(void) { enum e a[1] = {A}; return f(a); }
