const int a = 1;
int main(void) { a = 2; return 0; }
