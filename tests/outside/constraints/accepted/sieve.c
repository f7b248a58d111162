int main(void) {
    _Bool no[101] = {1, 1};
    int n = 0;
    for (int i = 2; i <= 100; i++) {
        if (no[i]) continue;
        n++;
        for (int j = i + i; j <= 100; j += i) no[j] = 1;
    }
    return n;
}
