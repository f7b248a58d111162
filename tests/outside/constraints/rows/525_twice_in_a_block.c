int main(void) {
    enum e { A };
    enum e { B };
    return 0;
}
