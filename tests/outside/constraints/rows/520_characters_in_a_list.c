char s[2] = {'a', 'b', 0};
int main(void) { return 0; }
