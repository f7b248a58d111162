int a[2][2];
int main(void) {
    return a
        [1];
}
