int a[2];
int main(void) { switch (a) { default: return 1; } }
