int main(void) { char a[1048416]; return 0; }
