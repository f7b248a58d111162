int main(void) {
    static int n = "a";
    return n;
}
