void v(void) { }
int main(void) {
    int a = 1;
    a +=
        v();
    return a;
}
