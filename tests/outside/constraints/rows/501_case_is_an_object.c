int main(void) {
    int n = 1;
    switch (n) {
    case
        n:
        return 1;
    }
    return 0;
}
