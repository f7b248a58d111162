int main(void) {
    for (int i = 0; i < 1; i++) ;
    return i;
}
