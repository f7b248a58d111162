int main(void) {
    int n = 1;
    switch (n) {
    case 0: case 1: default: case 2: { n = 0; }
    case 3: ;
    }
    return n;
}
