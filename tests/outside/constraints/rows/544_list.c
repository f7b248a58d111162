int main(void) {
    for (enum { A = 1, B } i = A; i < B; i++) ;
    return 0;
}
