enum e;
enum e { A };
int main(void) { return 0; }
