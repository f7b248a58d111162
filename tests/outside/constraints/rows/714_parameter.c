int f(char c) { char a[1048397]; return 0; }
int main(void) { return 0; }
