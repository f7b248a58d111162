void v(void) { }
int main(void) {
    for (;
        v();
        ) ;
    return 0;
}
