int f(char p[][4]);
int main(void) { return f("abc"); }
