int n = 1;
int main(void) { return n-- ? main() : 0; }
