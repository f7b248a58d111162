int main(void) {
    _Static_assert(sizeof(int) == 8, "m");
    return 0;
}
