short a[2][3] = {"ab", "cd"};
int main(void) { return 0; }
