enum e { A };
enum f { B };
enum e enum f x;
int main(void) { return 0; }
