int main(void) {
    short a[] = "ab";
    return a[0];
}
