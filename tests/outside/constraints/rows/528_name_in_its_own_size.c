int a[sizeof a];
int main(void) { return 0; }
