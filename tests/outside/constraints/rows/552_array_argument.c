extern int a[];
int f(int p[]) { return 0; }
int main(void) {
    return f(
        a);
}
