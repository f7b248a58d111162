int main(void) { char a[1048376], b, c; return 0; }
