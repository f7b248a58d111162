int x;
const int x;
int main(void) { return 0; }
