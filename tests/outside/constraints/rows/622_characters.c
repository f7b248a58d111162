char s[2][2] = {'a', 'b', 'c', 'd'};
int main(void) { return 0; }
