int a[];
int main(void) { return (int)sizeof a; }
