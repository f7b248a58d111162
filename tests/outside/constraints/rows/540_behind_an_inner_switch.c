int main(void) {
    switch (1) {
    case 1: switch (2) { case 2: ; }
    case 1: return 1;
    }
    return 0;
}
