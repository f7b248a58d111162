static int row[5];
static int grid[2][3];

static int at(int parameter[][3], int i) { return parameter[7][2] + parameter[i][0]; }

int main(void) {
    int n = 9;
    row[4] = 1;
    row[0] = 2;
    grid[1][2] = 3;
    if (n < 5)
        row[n] = 4;
    return row[2 + 2] + "ab"[2] + (n == 8 ? at(grid, 1) : 0);
}
