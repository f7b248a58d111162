int main(void) {
    for (const int i = 0; i < 2; i++) ;
    return 0;
}
