int a[-1 + 1u];
int main(void) { return 0; }
