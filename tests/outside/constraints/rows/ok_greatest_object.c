char a[1048576];
int main(void) { return a[1048575]; }
