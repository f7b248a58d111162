int main(void) {
    switch ((short)1) {
    case 0: return 1;
    case 0u - 0u: return 2;
    }
    return 0;
}
