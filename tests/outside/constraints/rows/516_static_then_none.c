static int x;
int x;
int main(void) { return 0; }
