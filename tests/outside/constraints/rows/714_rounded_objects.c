int main(void) { char a[1048377], b, c; return 0; }
