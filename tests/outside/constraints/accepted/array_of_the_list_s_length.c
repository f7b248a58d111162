int main(void) { int a[] = {1, 2, 3}; return sizeof a; }
