enum { N = 1 };
int main(void) {
    int n = 1;
    switch (n) {
    case N:
        return 1;
    }
    return 0;
}
