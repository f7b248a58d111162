int main(void) { for (int a[1] = { 3 }; a[0]; a[0]--) ; return 0; }
