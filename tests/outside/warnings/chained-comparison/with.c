int main(void) {
    int a = 1, b = 2, c = 3;
    if (a < b < c)
        b++;
    if (a == b == c)
        b++;
    if (a >= b > c)
        b++;
    return b;
}
