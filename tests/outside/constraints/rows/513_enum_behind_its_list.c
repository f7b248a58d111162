enum e { A };
enum e;
int main(void) { return 0; }
