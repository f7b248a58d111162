int main(void) {
    int n = 0;
    do switch (n) { case 2: break; default: continue; } while (n++ < 2);
    return n - 3;
}
