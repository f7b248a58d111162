extern int x, a[];
int main(void) { return (int)(sizeof x + sizeof a[x]) - 8; }
