void v(void) { }
int main(void) {
    int a =
        v();
    return a;
}
