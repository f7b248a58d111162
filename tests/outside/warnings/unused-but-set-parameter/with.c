static int three(int a) {
    a = 3;
    return 3;
}

int main(void) { return three(1); }
