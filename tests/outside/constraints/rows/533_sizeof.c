int main(void) { int a = 1; sizeof a = 2; return a; }
