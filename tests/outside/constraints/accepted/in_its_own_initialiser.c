int main(void) { int a = sizeof a; return a; }
