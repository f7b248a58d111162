int main(void) {
    for (_Static_assert(0, "m"); ; ) return 0;
}
