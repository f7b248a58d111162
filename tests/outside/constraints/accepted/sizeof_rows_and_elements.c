int a[2][3];
int main(void) { return sizeof a[0] + sizeof a[0][0]; }
