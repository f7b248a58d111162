int a[sizeof(1
    , 2)];
int main(void) { return 0; }
