int n;
int a[
    n];
int main(void) { return 0; }
