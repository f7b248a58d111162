int main(void) {
    switch (1) {
        for (;;) case 1: return 0;
    }
    return 0;
}
