int a[3];
int a[] = {1};
int main(void) { return (int)sizeof a - 12; }
