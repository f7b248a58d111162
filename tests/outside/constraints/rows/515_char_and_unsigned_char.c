char c;
unsigned char c;
int main(void) { return 0; }
