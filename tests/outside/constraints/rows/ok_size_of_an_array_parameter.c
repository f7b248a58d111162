int f(int a[10][2], char b[7]) { return (int)(sizeof a + sizeof b + sizeof a[0] + sizeof b[0]); }
int main(void) { return 0; }
