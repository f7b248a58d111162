int main(void) {
    _Bool b = 2;
    switch (b) { case 2: return 2; case 1: return 0; }
    return 3;
}
