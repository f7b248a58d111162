enum e { A };
int main(void) {
    enum e;
    return A;
}
