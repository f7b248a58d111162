enum e { A };
enum e x;
unsigned x;
int main(void) { return 0; }
