int one(void) { return 1; }
int main(void) {
    switch (1) {
    case
        one():
        return 1;
    }
    return 0;
}
