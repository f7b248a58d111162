int f(void) { return 1; }
int main(void) {
    int b[2] = f();
    return b[0];
}
