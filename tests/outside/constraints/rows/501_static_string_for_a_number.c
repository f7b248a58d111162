int x = "abc";
int main(void) { return 0; }
