signed signed x;
int main(void) { return 0; }
