int main(void) { int a[] = {1, 2, }; return sizeof a; }
