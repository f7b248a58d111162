unsigned int unsigned x;
int main(void) { return 0; }
