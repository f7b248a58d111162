int find(const int a[], int n, int x) {
    int l = 0, h = n;
    while (l < h) { int m = l + (h - l) / 2; if (a[m] < x) l = m + 1; else h = m; }
    return l;
}
int main(void) { static const int a[] = {2, 3, 5, 7, 11, 13}; return find(a, sizeof a / sizeof a[0], 7); }
