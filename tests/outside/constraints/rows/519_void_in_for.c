int main(void) {
    for (void x; ; ) return 0;
}
