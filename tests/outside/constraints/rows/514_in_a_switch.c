int main(void) {
    switch (1) {
        int a;
        int a;
    default:
        return 0;
    }
}
