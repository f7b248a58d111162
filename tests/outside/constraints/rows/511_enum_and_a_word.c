enum e { A };
enum e int x;
int main(void) { return 0; }
