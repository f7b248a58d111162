int a = sizeof a;
int main(void) { int b = sizeof b; return a - b; }
