enum e { A };
int main(void) { return e; }
