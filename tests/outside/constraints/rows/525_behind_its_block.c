int main(void) {
    { enum e { A }; }
    enum e x = 0;
    return x;
}
