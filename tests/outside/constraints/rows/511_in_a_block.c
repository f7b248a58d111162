int main(void) {
    long long x;
    return 0;
}
