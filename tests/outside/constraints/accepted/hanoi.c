int moves(int n, int from, int to) { return n ? moves(n - 1, from, 6 - from - to) + 1 + moves(n - 1, 6 - from - to, to) : 0; }
int main(void) { return moves(5, 1, 3); }
