static int three(int a) {
    a = a + 2;
    return a;
}
static void fill(int row[], int n) {
    for (int i = 0; i < n; i++)
        row[i] = 0;
}

int main(void) {
    int row[2];
    fill(row, 2);
    return three(1) + row[0];
}
