extern int a[];
int a[3];
extern int a[];
int main(void) { return (int)sizeof a - 12; }
