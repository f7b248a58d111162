int main(void) {
    switch (1) {
        while (1) { case 1: return 0; }
    }
    return 0;
}
