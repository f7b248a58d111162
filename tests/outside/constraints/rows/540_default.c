int main(void) {
    switch (1) {
    default: return 0;
    default: return 1;
    }
}
