int main(void) {
    { int y = 1; }
    return y;
}
