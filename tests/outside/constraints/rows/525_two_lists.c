enum e { A };
enum
e { B };
int main(void) { return 0; }
