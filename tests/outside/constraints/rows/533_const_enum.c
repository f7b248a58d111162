const enum e { A } a;
int main(void) { a = A; return 0; }
