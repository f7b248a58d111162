static int row[5];
static int grid[2][3];

static int at(int parameter[][3]) { return parameter[0][3]; }

int main(void) {
    row[5] = 1;
    row[-1] = 2;
    grid[1][3] = 3;
    grid[2][0] = 4;
    return row[2 + 3] + "ab"[3] + at(grid);
}
