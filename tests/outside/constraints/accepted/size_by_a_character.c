char a['A'];
int main(void) { return sizeof a; }
