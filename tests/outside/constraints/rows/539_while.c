void v(void) { }
int main(void) {
    while (
        v()) ;
    return 0;
}
