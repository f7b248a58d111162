void v(void) { }
int main(void) {
    do
        ;
    while (v());
    return 0;
}
