short short x;
int main(void) { return 0; }
