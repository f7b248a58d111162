int main(void) {
    unsigned char c = 1;
    switch (c) {
    case 257: return 1;
    case -255: return 2;
    case 1: return 0;
    }
    return 3;
}
