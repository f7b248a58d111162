enum e { A, B };
int main(void) {
    int n = 0;
    for (enum e i = A; i <= B; i++) n++;
    for (const int k = 1; n < 3; n += k) ;
    for (int a[2] = {1, 2}, i = 0; i < 2; i++) n -= a[i];
    return n;
}
