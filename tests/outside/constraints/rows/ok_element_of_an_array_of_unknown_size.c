extern int a[], b[][3];
int main(void) { return (int)(sizeof a[0] + sizeof b[0]) - 16; }
