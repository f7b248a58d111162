extern int a[];
int a[3] = {1, 1, 1};
int main(void) { return sizeof a / sizeof a[0]; }
