void f(void) {
    return 1;
}
int main(void) { return 0; }
