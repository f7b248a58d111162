int g(void);
int main(void) {
    return 0;
    g();
}
