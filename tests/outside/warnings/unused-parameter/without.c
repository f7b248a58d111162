static int first(int a, int b) {
    (void)b;
    return a;
}
static int declared(int a, int not_named_here);
static int declared(int a, int b) { return a + b; }

int main(void) { return first(1, 2) + declared(3, 4); }
