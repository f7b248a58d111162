char a[1024][1025];
int main(void) { return 0; }
