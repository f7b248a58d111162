int main(void) {
    int a = 0;
    { long a = 2; if (a == 0) return 1; { char a = 3; if (a != 3) return 2; } }
    return a;
}
