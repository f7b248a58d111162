int main(void) { char a[1048400]; ; return 0; }
