void v(void) { }
int main(void) {
    if
        (v()) ;
    return 0;
}
