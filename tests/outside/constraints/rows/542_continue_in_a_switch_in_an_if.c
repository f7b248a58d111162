int main(void) {
    if (1) switch (1) {
    case 1: continue;
    }
    return 0;
}
