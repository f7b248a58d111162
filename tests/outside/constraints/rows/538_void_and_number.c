void v(void) { }
int main(void) {
    1
        ?
        v() : 2;
    return 0;
}
