int a[] = {1, 2, 3}, b[sizeof a / sizeof a[0]], c[sizeof b];
int main(void) { return (int)sizeof c - 48; }
