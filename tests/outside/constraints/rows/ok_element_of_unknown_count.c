extern char a[][1048576];
int main(void) { return 0; }
