int a[2][3];
int main(void) { return (int)(sizeof a + sizeof a[0] + sizeof(a) + sizeof "abc" + sizeof("")) - 65; }
