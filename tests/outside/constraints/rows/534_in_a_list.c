void v(void) { }
int main(void) {
    int a[2] = {1,
        v()};
    return a[0];
}
