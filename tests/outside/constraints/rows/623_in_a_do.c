int main(void) {
    switch (1) {
        do case 1: return 0; while (1);
    }
    return 0;
}
