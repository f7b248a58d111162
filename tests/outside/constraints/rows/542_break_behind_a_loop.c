int main(void) {
    while (0) ;
    break;
    return 0;
}
