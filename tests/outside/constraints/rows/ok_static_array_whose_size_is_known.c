static int a[3];
static int a[];
extern int a[];
int main(void) { return (int)sizeof a - 12; }
