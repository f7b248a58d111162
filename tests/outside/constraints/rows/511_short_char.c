short char x;
int main(void) { return 0; }
