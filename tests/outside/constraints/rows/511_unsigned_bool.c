unsigned _Bool x;
int main(void) { return 0; }
