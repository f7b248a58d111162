int a[] = {1, 2, 3}, b[sizeof a / sizeof a[0]];
int main(void) { return sizeof b; }
