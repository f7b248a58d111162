int a[2], i;
int main(void) { return i[a]; }
