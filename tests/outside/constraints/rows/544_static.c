int main(void) {
    for (
        static
        int i; ; ) return 0;
}
