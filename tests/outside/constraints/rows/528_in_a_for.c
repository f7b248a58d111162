int main(void) {
    for (int i = j, j = 0; i < j; i++) ;
    return 0;
}
