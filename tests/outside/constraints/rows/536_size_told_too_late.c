extern int a[];
int main(void) { return (int)sizeof a; }
int a[3];
