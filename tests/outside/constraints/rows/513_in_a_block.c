int main(void) {
    char;
    return 0;
}
