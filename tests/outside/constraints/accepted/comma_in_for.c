int main(void) { int i, j; for (i = 0, j = 6; i < j; i++, j--) ; return j; }
