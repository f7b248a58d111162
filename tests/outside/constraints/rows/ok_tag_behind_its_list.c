enum e { A } x;
enum f { B = sizeof(enum e) };
enum e y, g(enum e a);
int main(void) { return (int)sizeof(enum f) + (enum f)A - B; }
