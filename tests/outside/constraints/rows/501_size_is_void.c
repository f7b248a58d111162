int a[
    (void)1];
int main(void) { return 0; }
