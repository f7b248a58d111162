char c;
signed char c;
int main(void) { return 0; }
