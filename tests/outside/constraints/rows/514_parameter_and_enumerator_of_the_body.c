int f(int a) {
    enum {
        a
    };
    return 0;
}
int main(void) { return 0; }
