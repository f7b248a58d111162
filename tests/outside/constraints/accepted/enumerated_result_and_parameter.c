enum e { A, B };
enum e next(enum e x) { return x == A ? B : A; }
int main(void) { return next(A); }
