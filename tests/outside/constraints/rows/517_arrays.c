int a[2] = {1};
int a[];
int a[2] = {1};
int main(void) { return 0; }
