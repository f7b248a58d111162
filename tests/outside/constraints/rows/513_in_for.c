int main(void) {
    for (int; 0; ) ;
    return 0;
}
