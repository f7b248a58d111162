int main(void) {
    do {
        int i = 0;
    } while (i);
    return 0;
}
