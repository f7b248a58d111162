int main(void) { for (char a[1048401]; ; ) return 0; }
