int main(void) {
    int x = "abc";
    return x;
}
