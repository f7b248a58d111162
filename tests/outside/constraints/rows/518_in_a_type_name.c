int main(void) {
    return (int)sizeof(
        int
        [0]);
}
