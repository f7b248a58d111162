int a[2];
int main(void) {
    a;
    return 0;
}
