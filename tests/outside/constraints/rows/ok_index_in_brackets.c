int a[2], i;
int main(void) { return a[i] + "abc"[3] + a[a[0]]; }
