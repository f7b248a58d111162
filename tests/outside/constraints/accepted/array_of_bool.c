int main(void) { _Bool a[3] = {5, 0, -1}; return a[0] + a[1] + a[2]; }
