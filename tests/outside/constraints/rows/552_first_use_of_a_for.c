int g(void);
int main(void) {
    for (; ; g()) {
        g();
    }
}
