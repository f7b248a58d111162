enum e { A };
int main(void) {
    enum e { B = sizeof(enum e) };
    return 0;
}
