int main(void) {
    switch (1) { case 3: case 2: default: case 1:
    case 3: return 0; }
    return 1;
}
