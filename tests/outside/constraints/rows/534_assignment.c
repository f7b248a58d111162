void v(void) { }
int main(void) {
    int a;
    a
        =
        v();
    return a;
}
