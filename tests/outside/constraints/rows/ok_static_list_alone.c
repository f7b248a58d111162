static enum e { A };
int main(void) { return A; }
