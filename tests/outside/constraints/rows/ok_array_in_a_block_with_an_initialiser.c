int main(void) {
    int a[] = {1, 2}, b[][2] = {{1}, {2}, {3}};
    char s[] = "abc";
    return (int)(sizeof a + sizeof b + sizeof s) - 36;
}
