enum e { A };
enum { B = 2 };
const enum { C };
int main(void) { return A + B + C - 2; }
