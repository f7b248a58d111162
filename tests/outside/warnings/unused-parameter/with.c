static int first(int a, int b) { return a; }
static int length(const char text[]) { return 3; }

int main(void) { return first(1, 2) + length("abc"); }
