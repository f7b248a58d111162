int c =
    "abc"[1];
int main(void) { return c; }
