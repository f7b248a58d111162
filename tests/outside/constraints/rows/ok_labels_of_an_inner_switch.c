int main(void) {
    switch (1) {
    case 1:
        switch (2) {
        case 1: return 1;
        default: break;
        }
        break;
    default: return 2;
    }
    return 0;
}
