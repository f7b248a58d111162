int main(void) { for (char a[1048400]; ; ) return 0; }
