int a =
    b, b;
int main(void) { return a; }
