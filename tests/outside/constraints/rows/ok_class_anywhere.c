int static x;
const extern int y;
unsigned static const z = 1;
int extern f(void);
int main(void) { return x; }
