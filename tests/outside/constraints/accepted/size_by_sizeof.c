int a[sizeof(int)];
int main(void) { return sizeof a; }
