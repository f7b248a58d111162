int main(void) {
    for (int i = 0, i = 1; i < 2; i++) ;
    return 0;
}
