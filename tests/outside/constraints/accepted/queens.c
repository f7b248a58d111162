int columns[6];
int fits(int row, int column) {
    for (int i = 0; i < row; i++) {
        int d = columns[i] - column;
        if (d == 0 || d == row - i || -d == row - i) return 0;
    }
    return 1;
}
int count(int row) {
    int n = 0;
    if (row == 6) return 1;
    for (int c = 0; c < 6; c++) if (fits(row, c)) { columns[row] = c; n += count(row + 1); }
    return n;
}
int main(void) { return count(0); }
