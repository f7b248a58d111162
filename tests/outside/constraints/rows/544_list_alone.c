int main(void) {
    for (enum e { A }; ; ) return 0;
}
