void add(int row[], int n) {
    row[n] += 10;
}
int main(void) {
    int m[2][3] = { { 1, 2 }, { 3 } };
    char long_text[20] = "ab";
    add(m[1], 2);
    m[0][1]--;
    do
        m[1][2] -= 4;
    while (m[1][2] > 4);
    for (;;) {
        if (m[0][1] > 0)
            break;
    }
    return m[1][2] + long_text[19];
}
