int main(void) {
    switch (1u) {
    case 4294967295u: return 1;
    case -1: return 2;
    }
    return 0;
}
