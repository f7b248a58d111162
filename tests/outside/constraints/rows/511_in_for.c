int main(void) {
    for (long long i = 0; i < 1; i++) ;
    return 0;
}
