int main(void) {
    switch (1) {
        if (1) case 1: return 0;
    }
    return 0;
}
