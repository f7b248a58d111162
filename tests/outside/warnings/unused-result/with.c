static int square(int x) { return x * x; }
static int sum(const int row[], int n) {
    int total = 0;
    for (int i = 0; i < n; i++)
        total += row[i];
    return total;
}

int main(void) {
    const int row[2] = { 1, 2 };
    square(3);
    sum(row, 2);
    return 0;
}
