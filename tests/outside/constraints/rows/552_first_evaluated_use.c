int g(void);
int main(void) {
    int n = sizeof(g());
    n =
        g();
    return g() + n;
}
