int a[2][3];
int main(void) { return sizeof a; }
