int main(void) {
    const char s[];
    return 0;
}
