int g(void);
int main(void) {
    if (0) g();
    return 0;
}
