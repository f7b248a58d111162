static int a[] = {1, 2, 3};
int main(void) { return (int)sizeof a - 12; }
