int main(void) {
    short a[2][3] = {"ab", "cd"};
    return a[0][0];
}
