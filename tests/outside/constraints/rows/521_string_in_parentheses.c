char s[] = ("a");
int main(void) { return 0; }
