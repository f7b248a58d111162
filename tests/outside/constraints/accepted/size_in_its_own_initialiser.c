int main(void) { int a[2] = {1, sizeof a}; return a[1]; }
