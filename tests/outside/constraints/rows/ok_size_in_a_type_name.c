enum { N = 3 };
int main(void) { return (int)sizeof(int[N + 1][N]) - 48; }
