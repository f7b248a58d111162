int f(int a), b[sizeof a];
int main(void) { return 0; }
