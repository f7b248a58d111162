int f(int n,
    char p[][1048577]);
int main(void) { return 0; }
