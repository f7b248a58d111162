int main(void) {
    int n = 0;
    for (;;) {
        switch (n++) {
        case 0: continue;
        case 1: break;
        default: { if (n > 4) { break; } continue; }
        }
        if (n > 4) break;
    }
    do { if (n) continue; } while (0);
    while (1) { { break; } }
    return n - 5;
}
