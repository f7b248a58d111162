int f(void) { return 0; }
int main(void) {
    int f = 1;
    return f();
}
