enum { N = 5 };
int a[N];
int main(void) { return sizeof a; }
