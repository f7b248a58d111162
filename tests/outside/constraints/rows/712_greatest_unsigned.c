char a[4294967295u];
int main(void) { return 0; }
