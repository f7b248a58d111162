/* Powers of a matrix of 12 rows and columns, modulo 10007, and the trace of the last. */
int a[12][12];
int b[12][12];
int c[12][12];

void product(void)
{
    int i;
    int j;
    int k;
    for (i = 0; i < 12; i++) {
        for (j = 0; j < 12; j++) {
            int sum = 0;
            for (k = 0; k < 12; k++)
                sum += a[i][k] * b[k][j];
            c[i][j] = sum % 10007;
        }
    }
}

int main(void)
{
    int i;
    int j;
    int n;
    int trace = 0;
    for (i = 0; i < 12; i++) {
        for (j = 0; j < 12; j++) {
            a[i][j] = i * 3 + j;
            b[i][j] = i == j;
        }
    }
    for (n = 0; n < 10; n++) {
        product();
        for (i = 0; i < 12; i++)
            for (j = 0; j < 12; j++)
                b[i][j] = c[i][j];
    }
    for (i = 0; i < 12; i++)
        trace += b[i][i];
    return trace & 127;
}
