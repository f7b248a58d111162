enum e { A, B };
enum f { C, B };
int main(void) { return 0; }
