int main(void) {
    for (_Static_assert(1, "m"); ; ) return 0;
}
