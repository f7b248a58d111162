int main(void) {
    int n = 3;
    return (int)sizeof(int[
        n]);
}
