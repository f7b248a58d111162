int main(void) {
    switch (1) { default: break; }
    if (1)
        default: return 0;
    return 1;
}
