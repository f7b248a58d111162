int main(void) {
    while (1) { case 1: return 0; }
}
