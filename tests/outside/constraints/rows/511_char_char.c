char char x;
int main(void) { return 0; }
