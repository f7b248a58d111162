int A;
enum {
    A };
int main(void) { return 0; }
