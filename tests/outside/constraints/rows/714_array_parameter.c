int f(char p[][1000]) { char a[1048381]; return 0; }
int main(void) { return 0; }
