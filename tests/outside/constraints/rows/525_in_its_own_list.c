enum e { A = sizeof(
    enum e) };
int main(void) { return 0; }
