void v(void) { }
void f(void) {
    return
        v();
}
int main(void) { return 0; }
