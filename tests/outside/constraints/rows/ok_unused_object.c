extern int x;
extern char a[1048576], b[], c[][5];
int main(void) { return (int)(sizeof x + sizeof a + sizeof b[1] + sizeof c[0] + sizeof(x = 1)) - 1048590; }
