short a[512][1024];
int main(void) { return a[511][1023]; }
