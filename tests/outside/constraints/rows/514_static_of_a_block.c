int main(void) {
    static int a;
    static int a;
    return a;
}
