unsigned f(void) {
    if (1)
        return;
    return 1;
}
int main(void) { return 0; }
