int a[] = {
    1,
    sizeof a
};
int main(void) { return 0; }
