int main(void) {
    for (const static int i = 0; i < 0; ) ;
    return 0;
}
